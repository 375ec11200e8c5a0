//! Compares measure and render, with options and without, with the crate's texts, those of the SQLite edition and the model's
//! refusals.

mod call;
mod report;
#[cfg(feature = "selftest")]
pub mod stand_in;

use crate::fuzz::Judge;
use crate::guarded::Fences;
pub use call::{by_bytes, Asked, Call, Lent, Outcome};
use model::damage::{damage, Case};
use model::options::{self, Edition, MEANT, SETTINGS};
use model::samples::{sample_in, Judged};
use model::texts;
pub use report::{answers, told, Counts, Difference};
use tokens::random::Random;

pub type Checked = Result<(), Box<Difference>>;

/// One value in so many is followed by damaged copies of its tree, so many each.
const DAMAGED: usize = 4;
const COPIES: usize = 2;
/// Most bytes of room beyond a text, and of the room of a refused call.
const MORE: usize = 40;

/// The listed trees, then those of so many random values.
pub fn compare(count: u64, seed: u64) -> Result<Counts, Box<Difference>> {
    let listed = texts::all().into_iter().chain(texts::limits());
    compare_with(&listed.collect::<Vec<_>>(), count, seed)
}

/// The list is made by the caller, who may use it again.
pub fn compare_with<'a>(
    listed: impl IntoIterator<Item = &'a Judged>,
    count: u64,
    seed: u64,
) -> Result<Counts, Box<Difference>> {
    let mut random = Random::new(seed);
    let mut counts = Counts::default();
    let judge = Judge::new().expect("entries that can be read");
    for judged in listed {
        hold_listed(&judge, judged, &mut random, &mut counts)?;
    }
    for _ in 0..count {
        let options = options::any(&mut random);
        let sample = sample_in(Edition::of(options), &mut random);
        let judged = sample.judged_with(options);
        let fences = by_bytes(random.word() as usize);
        hold("a random value", &judged, fences, &mut random, &mut counts)?;
        if random.one_in(DAMAGED) {
            hold_damaged(&judged.case, &mut random, &mut counts)?;
        }
    }
    Ok(counts)
}

/// In each edition, with the switch off, and with it on; each with bits that mean nothing. Where the
/// list has no text, that of the entries is due.
fn hold_listed(
    judge: &Judge,
    judged: &Judged,
    random: &mut Random,
    counts: &mut Counts,
) -> Checked {
    let edition = Edition::of(judged.case.options);
    for setting in SETTINGS {
        let options = setting | options::meaningless(random);
        let listed = judged.expected.is_ok() && Edition::of(options) == edition;
        let judged = match listed {
            true => judged.asked(options),
            false => {
                let case = judged.case.clone().with(options);
                judge.judged(case).expect("what the entries can write")
            }
        };
        let fences = by_bytes(random.word() as usize);
        hold("a listed tree", &judged, fences, random, counts)?;
    }
    Ok(())
}

/// Damaged copies, but for those that are good trees still: the crate has no text for them.
fn hold_damaged(case: &Case, random: &mut Random, counts: &mut Counts) -> Checked {
    for _ in 0..COPIES {
        let mut case = case.clone();
        damage(random, &mut case);
        case.options = options::any(random);
        let refusal = case.refusal();
        if refusal.0 > 0 {
            let expected = Err(refusal);
            let judged = Judged { case, expected };
            let fences = by_bytes(random.word() as usize);
            hold("a damaged tree", &judged, fences, random, counts)?;
        }
    }
    Ok(())
}

/// All calls for one tree, with the parts lent so. Where no option means anything, each is made with options or without.
pub fn hold(
    part: &'static str,
    judged: &Judged,
    fences: Fences,
    random: &mut Random,
    counts: &mut Counts,
) -> Checked {
    let calls = drawn_calls(judged, random);
    counts.tree(part, judged);
    make(&calls, judged, part, fences, counts)
}

/// The same calls, and the field profile.
pub fn hold_with_profile(
    part: &'static str,
    judged: &Judged,
    fences: Fences,
    random: &mut Random,
    counts: &mut Counts,
) -> Checked {
    let mut calls = drawn_calls(judged, random);
    calls.push(with_options(Asked::Profile));
    counts.tree(part, judged);
    make(&calls, judged, part, fences, counts)
}

/// The field profile and measure, and render with just the room, all with options: what the profile admits must be measured
/// and written as without it.
pub fn hold_profile(
    part: &'static str,
    judged: &Judged,
    fences: Fences,
    random: &mut Random,
    counts: &mut Counts,
) -> Checked {
    let room = judged.expected.as_ref().map_or(0, String::len);
    let render = Asked::Render(random.bytes(room));
    let calls = [Asked::Profile, Asked::Measure, render].map(with_options);
    counts.tree(part, judged);
    make(&calls, judged, part, fences, counts)
}

/// The same, but where no option means anything, each call is made with options and without.
pub fn hold_both(
    part: &'static str,
    judged: &Judged,
    fences: Fences,
    random: &mut Random,
    counts: &mut Counts,
) -> Checked {
    let ways: &[bool] = match judged.case.options & MEANT {
        0 => &[false, true],
        _ => &[true],
    };
    let asked = asked(judged, random);
    let calls = ways.iter().flat_map(|&with_options| {
        asked.iter().map(move |asked| Call {
            with_options,
            asked: asked.clone(),
        })
    });
    counts.tree(part, judged);
    make(&calls.collect::<Vec<_>>(), judged, part, fences, counts)
}

/// Where no option means anything, each with options or without.
fn drawn_calls(judged: &Judged, random: &mut Random) -> Vec<Call> {
    let asked = asked(judged, random);
    let calls = asked.into_iter().map(|asked| Call {
        with_options: judged.case.options & MEANT != 0 || random.one_in(2),
        asked,
    });
    calls.collect()
}

fn with_options(asked: Asked) -> Call {
    let with_options = true;
    Call {
        with_options,
        asked,
    }
}

/// Makes the calls, and holds each to what is due.
fn make(
    calls: &[Call],
    judged: &Judged,
    part: &'static str,
    fences: Fences,
    counts: &mut Counts,
) -> Checked {
    let mut lent = Lent::new(&judged.case, fences);
    for call in calls {
        let observed = lent.observed(call);
        let expected = call.expected(judged);
        if observed != expected {
            let case = judged.case.clone();
            return Err(Box::new(Difference {
                part,
                case,
                call: call.clone(),
                expected,
                observed,
            }));
        }
        counts.call(call, &observed);
    }
    Ok(())
}

/// Measure; render with just the room, with more, with one byte less, and with any less.
fn asked(judged: &Judged, random: &mut Random) -> Vec<Asked> {
    let rooms = match &judged.expected {
        Err(_) => vec![random.below(MORE)],
        Ok(text) if text.is_empty() => vec![0, random.between(1, MORE)],
        Ok(text) => {
            let length = text.len();
            let more = length + random.between(1, MORE);
            vec![length, more, length - 1, random.below(length)]
        }
    };
    let render = |room| Asked::Render(random.bytes(room));
    let renders = rooms.into_iter().map(render);
    [Asked::Measure].into_iter().chain(renders).collect()
}
