//! Bytes that nobody named (request xiii): an admitted tree with two texts of the same length that agree on every part that a
//! record names. Where both are admitted, answers and outputs must be the same.

pub mod texts;

use crate::crash;
use crate::drawn::{self, EDITIONS, SOURCES};
use crate::guarded::{fences, Fences};
use crate::hex::hex;
use crate::report::Numbers;
use crate::trees::{answers, told, Asked, Call, Lent, Outcome};
use model::damage::Case;
use model::grow;
use model::options::{self, Edition, MEANT, SETTINGS};
use model::samples::sample_in;
use std::collections::BTreeMap;
use std::fmt;
use tokens::random::Random;

/// Most records of a grown tree, about.
const GROWN: usize = 60;
/// One tree in so many has parts that were moved.
const MOVED: usize = 4;
/// Most bytes of room beyond a text.
const MORE: usize = 40;
/// What bytes that nobody names may bring about: a text that is no UTF-8, or an empty part inside a character.
const REFUSALS: [u32; 3] = [2, 5, 12];

type Checked = Result<(), String>;

/// What was compared without a difference.
#[derive(Default)]
pub struct Counts {
    /// Trees of each sort, and how many of them had parts that were moved.
    parts: BTreeMap<&'static str, [u64; 2]>,
    /// Trees that were not admitted, and passed over.
    refused: u64,
    /// How the second text was answered, for each way to change it.
    seconds: BTreeMap<&'static str, Numbers>,
    /// Pairs of admitted texts, for each setting of the options that mean something.
    settings: [u64; 4],
    /// Pairs whose texts are the same by chance.
    unchanged: u64,
    /// Bytes of the texts of these pairs: named, not named, and changed.
    bytes: [u64; 3],
    /// One named byte changed: another text, the same text, refused, and trees that name no ASCII byte.
    named: [u64; 4],
    measured: Numbers,
    rendered: Numbers,
}

/// So many random trees, each with two texts.
pub fn compare(count: u64, seed: u64) -> Result<Counts, String> {
    crash::watch();
    let mut all = Comparison {
        random: Random::new(seed),
        counts: Counts::default(),
    };
    for _ in 0..count {
        all.tree()?;
    }
    match count > 0 && all.counts.named[0] == 0 {
        true => Err("no change of a named byte changed a text".to_string()),
        false => Ok(all.counts),
    }
}

struct Comparison {
    random: Random,
    counts: Counts,
}

impl Comparison {
    fn tree(&mut self) -> Checked {
        crash::at(self.counts.calls());
        let case = self.admitted();
        let gaps = texts::gaps(&case);
        let (way, text) = texts::changed(&mut self.random, &case.text, &gaps);
        let other = Case {
            text,
            ..case.clone()
        };
        let fences = fences(&mut self.random);
        let first = self.admitted_text(&case, fences)?;
        self.second(way, &case, &other, fences, &first)?;
        self.named_byte(&case, fences, &first)
    }

    /// A tree that the model admits, with a text that has bytes that nobody names.
    fn admitted(&mut self) -> Case {
        let random = &mut self.random;
        loop {
            let (part, mut case) = drawn(random);
            let moved = random.one_in(MOVED) && texts::move_parts(random, &mut case);
            texts::enlarge(random, &mut case);
            if case.refusal() == (0, 0) {
                let counts = self.counts.parts.entry(part).or_default();
                counts[0] += 1;
                counts[1] += u64::from(moved);
                return case;
            }
            self.counts.refused += 1;
        }
    }

    /// The calls for the first text, and what comes of them: measure, render with room enough, and with any less.
    fn admitted_text(&mut self, case: &Case, fences: Fences) -> Result<Vec<Made>, String> {
        let mut lent = Lent::new(case, fences);
        let measure = self.made(&mut lent, Asked::Measure);
        let length = measure.outcome.answer.place as usize;
        if measure.outcome.answer.number != 0 {
            return Err(told_one("an admitted tree", case, &measure));
        }
        let enough = length + self.random.below(MORE);
        let mut made = vec![measure];
        for room in [enough, self.random.below(length + 1)] {
            let before = self.random.bytes(room);
            made.push(self.made(&mut lent, Asked::Render(before)));
        }
        Ok(made)
    }

    fn made(&mut self, lent: &mut Lent, asked: Asked) -> Made {
        let call = Call {
            with_options: true,
            asked,
        };
        let outcome = lent.observed(&call);
        self.counts.call(&call, &outcome);
        Made { call, outcome }
    }

    /// The same calls for the second text: the same comes of them if it is admitted, else the refusal of the model.
    fn second(
        &mut self,
        way: &'static str,
        case: &Case,
        other: &Case,
        fences: Fences,
        first: &[Made],
    ) -> Checked {
        let (number, place) = other.refusal();
        let seconds = self.counts.seconds.entry(way).or_default();
        seconds[number as usize] += 1;
        if number == 0 {
            self.counts.pair(case, other);
        } else if !REFUSALS.contains(&number) {
            return Err(format!("{way}: the model refuses it with {number}"));
        }
        let mut lent = Lent::new(other, fences);
        for made in first {
            let again = self.made(&mut lent, made.call.asked.clone());
            let answer = &again.outcome.answer;
            let same = match number {
                0 => again.outcome == made.outcome && again.outcome.rest_untouched,
                _ => {
                    let output_untouched = again.outcome.output == made.call.before();
                    let untouched = output_untouched && again.outcome.rest_untouched;
                    (answer.number, answer.place) == (number, place) && untouched
                }
            };
            if !same {
                return Err(told_two(way, case, other, made, &again));
            }
        }
        Ok(())
    }

    /// One named byte is another: whether the text is another then is only counted.
    fn named_byte(&mut self, case: &Case, fences: Fences, first: &[Made]) -> Checked {
        let named = texts::named(&case.tree, &case.text);
        let ascii = |&place: &usize| named[place] && case.text[place] < 0x80;
        let places: Vec<usize> = (0..named.len()).filter(ascii).collect();
        if places.is_empty() {
            self.counts.named[3] += 1;
            return Ok(());
        }
        let at = self.random.pick(&places);
        let mut other = case.clone();
        other.text[at] = texts::other_ascii(&mut self.random, other.text[at]);
        let (number, _) = other.refusal();
        let mut lent = Lent::new(&other, fences);
        let again: Vec<Made> = first[..2]
            .iter()
            .map(|made| self.made(&mut lent, made.call.asked.clone()))
            .collect();
        let measured = again[0].outcome.answer.number;
        if measured != number {
            return Err(told_one("a named byte changed", &other, &again[0]));
        }
        let same = again
            .iter()
            .zip(first)
            .all(|(again, made)| again.outcome == made.outcome);
        let sort = match (number, same) {
            (0, false) => 0,
            (0, true) => 1,
            _ => 2,
        };
        self.counts.named[sort] += 1;
        Ok(())
    }
}

/// A call, and what came of it.
struct Made {
    call: Call,
    outcome: Outcome,
}

/// A tree and a text with any options, and in a few words where they come from.
fn drawn(random: &mut Random) -> (&'static str, Case) {
    let options = options::any(random);
    let (part, case) = match random.below(4) {
        0 => {
            let sample = sample_in(Edition::of(options), random);
            ("values of the crate's types", sample.pair.into())
        }
        1 => {
            let records = random.below(GROWN);
            ("grown from the grammar", grow::tree(random, records).into())
        }
        2 => ("sources of CHECKs", drawn::good(&SOURCES, random)),
        _ => (
            "what the editions differ in",
            drawn::good(&EDITIONS, random),
        ),
    };
    (part, case.with(options))
}

fn told_one(part: &str, case: &Case, made: &Made) -> String {
    let (tree, text) = (hex(&case.tree), hex(&case.text));
    let room = made.call.before().len();
    format!(
        "difference in {part}: room {room}, options {:#x}\ntree {tree}\ntext {text}\nobserved\n{}",
        case.options, made.outcome
    )
}

fn told_two(way: &str, case: &Case, other: &Case, first: &Made, second: &Made) -> String {
    format!(
        "difference in bytes that nobody named, {way}\nfirst: {}\nsecond: {}",
        told_one("one text", case, first),
        told_one("the other", other, second)
    )
}

impl Counts {
    fn calls(&self) -> u64 {
        self.measured.iter().chain(&self.rendered).sum()
    }

    fn call(&mut self, call: &Call, outcome: &Outcome) {
        let numbers = match call.asked {
            Asked::Render(_) => &mut self.rendered,
            _ => &mut self.measured,
        };
        // A number that no call has is told as a difference.
        if let Some(count) = numbers.get_mut(outcome.answer.number as usize) {
            *count += 1;
        }
    }

    /// Two admitted texts.
    fn pair(&mut self, case: &Case, other: &Case) {
        let setting = case.options & MEANT;
        let at = SETTINGS.iter().position(|&each| each == setting);
        self.settings[at.expect("a setting")] += 1;
        let named = texts::named(&case.tree, &case.text);
        let named = named.iter().filter(|&&named| named).count();
        let both = case.text.iter().zip(&other.text);
        let changed = both.filter(|(one, other)| one != other).count();
        self.unchanged += u64::from(changed == 0);
        self.bytes[0] += named as u64;
        self.bytes[1] += (case.text.len() - named) as u64;
        self.bytes[2] += changed as u64;
    }
}

/// Tables as they are written in Markdown.
impl fmt::Display for Counts {
    fn fmt(&self, f: &mut fmt::Formatter<'_>) -> fmt::Result {
        writeln!(f, "| Trees | In all | With parts moved |\n|---|---|---|")?;
        for (part, [all, moved]) in &self.parts {
            writeln!(f, "| {part} | {} | {} |", told(*all), told(*moved))?;
        }
        writeln!(f, "not admitted, and passed over: {}", told(self.refused))?;
        writeln!(f, "\n| The second text | In all | 0 | 2 | 5 | 12 |")?;
        writeln!(f, "|---|---|---|---|---|---|")?;
        for (way, numbers) in &self.seconds {
            let due = [0, 2, 5, 12].map(|number| numbers[number]);
            let cells = [due.iter().sum()].into_iter().chain(due).map(told);
            let cells: Vec<String> = cells.collect();
            writeln!(f, "| {way} | {} |", cells.join(" | "))?;
        }
        let [off, strict, sqlite, both] = self.settings.map(told);
        writeln!(f, "\npairs of admitted texts, with bits 0 and 1 off: {off}, bit 0 on: {strict}, bit 1 on: {sqlite}, both on: {both}")?;
        writeln!(f, "the same text twice by chance: {}", told(self.unchanged))?;
        let [named, unnamed, changed] = self.bytes.map(told);
        writeln!(
            f,
            "bytes of these texts: {named} named, {unnamed} not named, {changed} of them changed"
        )?;
        let [another, same, refused, none] = self.named.map(told);
        writeln!(f, "one named byte changed: another text {another} times, the same text {same} times, refused {refused} times; no ASCII byte named: {none} times")?;
        let calls = [
            ("measure_with", &self.measured),
            ("render_with", &self.rendered),
        ];
        write!(f, "\n{}", answers(&calls))
    }
}
