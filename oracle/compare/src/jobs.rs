//! Many trees at once (request i): lists of jobs through the exported call, held to the model of a list, and to our own single
//! calls done in order.

mod call;
mod lists;
#[cfg(feature = "selftest")]
pub mod stand_in;

use crate::crash;
use crate::fuzz::{Judge, Pool};
use crate::guarded::{any_fence, Fence};
use crate::hex::hex;
use crate::report::Numbers;
use crate::trees::{answers, told};
pub use call::Around;
use call::{Call, Outcome};
use calls::Job;
use model::jobs::listed::{self, BEFORE};
use model::jobs::{outcome, Answer, List, Part, OUTSIDE};
use std::collections::{BTreeMap, HashMap};
use std::fmt;
use tokens::random::Random;

type Checked = Result<(), String>;

/// What was compared without a difference.
#[derive(Default)]
pub struct Counts {
    lists: u64,
    calls: u64,
    /// How many lists had no job, an accepted one, a refused one, and an accepted one behind a refused one.
    with: [u64; 4],
    /// How often each sort of job gave each answer.
    sorts: BTreeMap<&'static str, Numbers>,
    numbers: Numbers,
    written: u64,
}

/// A list that is to be tried, with the sort of each job and what its tree comes to where there is room.
struct Tried {
    list: List,
    sorts: Vec<&'static str>,
    answers: Vec<Answer>,
}

/// The listed ones, then so many random lists.
pub fn compare(count: u64, seed: u64) -> Result<Counts, String> {
    crash::watch();
    let judge = Judge::new()?;
    let pool = Pool::default();
    let mut random = Random::new(seed);
    let mut counts = Counts::default();
    listed_ones(&mut random, &mut counts)?;
    for _ in 0..count {
        crash::at(counts.calls);
        let around = around(&mut random);
        compare_one(&judge, &pool, &around, &mut random, &mut counts)?;
    }
    Ok(counts)
}

/// The fixed lists of the gate, with their own room.
fn listed_ones(random: &mut Random, counts: &mut Counts) -> Checked {
    for listed in listed::all() {
        crash::at(counts.calls);
        let tried = Tried {
            sorts: vec!["of a listed list"; listed.list.jobs.len()],
            list: listed.list,
            answers: listed.answers,
        };
        let output = vec![BEFORE; listed.room];
        let around = around(random);
        counts.list(&tried);
        hold(&tried, output, &around, random, counts)?;
    }
    Ok(())
}

/// One random list, with several rooms, lent so.
pub fn compare_one(
    judge: &Judge,
    pool: &Pool,
    around: &Around,
    random: &mut Random,
    counts: &mut Counts,
) -> Checked {
    let (list, sorts) = lists::drawn(pool, random);
    let answers = answers_of(judge, &list)?;
    let tried = Tried {
        list,
        sorts,
        answers,
    };
    let lengths = tried.answers.iter().flatten().map(String::len);
    let rooms = lists::rooms(random, &lengths.collect::<Vec<_>>());
    counts.list(&tried);
    for room in rooms {
        let output = random.bytes(room);
        hold(&tried, output, around, random, counts)?;
    }
    Ok(())
}

/// What each job's tree comes to where there is room. A job outside is told before all else.
fn answers_of(judge: &Judge, list: &List) -> Result<Vec<Answer>, String> {
    let mut known: HashMap<Part, Answer> = HashMap::new();
    let mut answers = vec![];
    for job in &list.jobs {
        if !known.contains_key(job) {
            let answer = match list.case(job) {
                None => Err(OUTSIDE),
                Some(case) => judge.judged(case)?.expected,
            };
            known.insert(*job, answer);
        }
        answers.push(known[job].clone());
    }
    Ok(answers)
}

/// The call with this output, held to the model and to single calls.
fn hold(
    tried: &Tried,
    output: Vec<u8>,
    around: &Around,
    random: &mut Random,
    counts: &mut Counts,
) -> Checked {
    let before = tried.list.jobs.iter().map(|part| Job {
        tree_start: part.start,
        tree_len: part.length,
        refusal: random.word(),
        place: random.word(),
        out_start: random.word(),
    });
    let call = Call {
        list: &tried.list,
        jobs: before.collect(),
        output,
    };
    let model = outcome(&tried.answers, call.output.len());
    let expected = call.expected(&model);
    let observed = call.observed(around);
    if observed != expected {
        return Err(difference("the model", &call, &expected, &observed));
    }
    let singles = call.by_single_calls(around);
    if singles != observed {
        return Err(difference("single calls", &call, &singles, &observed));
    }
    counts.call(tried, &observed);
    Ok(())
}

/// Draws how jobs, trees, text and output are lent.
fn around(random: &mut Random) -> Around {
    within([(); 4].map(|()| any_fence(random)))
}

/// These fences, with the jobs at an address of theirs.
pub fn within([jobs, trees, text, output]: [Fence; 4]) -> Around {
    Around {
        jobs: jobs.aligned::<Job>(),
        others: [trees, text, output],
    }
}

impl Counts {
    /// How many calls were made.
    pub fn calls(&self) -> u64 {
        self.calls
    }

    /// How often a job gave each answer.
    pub fn by_number(&self) -> &Numbers {
        &self.numbers
    }

    /// Counts the list, by what its trees come to.
    fn list(&mut self, tried: &Tried) {
        self.lists += 1;
        let mut accepted = tried.answers.iter().map(Result::is_ok);
        let refused_first = accepted.clone().skip_while(|accepted| *accepted);
        let counted = [
            tried.answers.is_empty(),
            accepted.any(|accepted| accepted),
            tried.answers.iter().any(Result::is_err),
            refused_first.clone().any(|accepted| accepted),
        ];
        for (count, is_so) in self.with.iter_mut().zip(counted) {
            *count += u64::from(is_so);
        }
    }

    fn call(&mut self, tried: &Tried, outcome: &Outcome) {
        self.calls += 1;
        self.written += outcome.answer;
        for (job, sort) in outcome.jobs.iter().zip(&tried.sorts) {
            let number = job.refusal as usize;
            self.numbers[number] += 1;
            self.sorts.entry(sort).or_default()[number] += 1;
        }
    }
}

/// Tables as they are written in Markdown.
impl fmt::Display for Counts {
    fn fmt(&self, f: &mut fmt::Formatter<'_>) -> fmt::Result {
        let [none, accepted, refused, behind] = self.with.map(told);
        let (lists, calls) = (told(self.lists), told(self.calls));
        writeln!(f, "lists of jobs: {lists}, with no job {none}, with a good tree {accepted}, with a refused one {refused}, with a good one behind a refused one {behind}")?;
        let written = told(self.written);
        writeln!(f, "calls: {calls}, bytes written: {written}\n")?;
        let mut sorts: Vec<(&str, &Numbers)> = vec![];
        sorts.extend(self.sorts.iter().map(|(sort, numbers)| (*sort, numbers)));
        sorts.push(("all jobs", &self.numbers));
        let table = answers(&sorts);
        write!(
            f,
            "{}",
            table.replace("| Call | Calls |", "| Jobs | In all |")
        )
    }
}

/// All data of the call, what was due and what came of it.
fn difference(from: &str, call: &Call, expected: &Outcome, observed: &Outcome) -> String {
    let list = call.list;
    let jobs = list.jobs.iter();
    let jobs = jobs.map(|part| format!("\n  start {}, length {}", part.start, part.length));
    format!(
        "difference between jobs and {from}: room for {}, options {:#x}\njobs{}\ntrees {}\ntext {}\nbefore {}\nexpected\n{}\nobserved\n{}",
        call.output.len(),
        list.options,
        jobs.collect::<String>(),
        hex(&list.trees),
        hex(&list.text),
        hex(&call.output),
        told_outcome(expected),
        told_outcome(observed)
    )
}

fn told_outcome(outcome: &Outcome) -> String {
    let jobs = outcome.jobs.iter().map(|job| {
        let Job {
            tree_start,
            tree_len,
            refusal,
            place,
            out_start,
        } = job;
        format!("  job      {tree_start} {tree_len}: {refusal}, place {place}, start {out_start}\n")
    });
    let rest = match outcome.rest_untouched {
        true => "untouched",
        false => "CHANGED",
    };
    format!(
        "  answer   {}\n{}  output   {}\n  the rest {rest}",
        outcome.answer,
        jobs.collect::<String>(),
        hex(&outcome.output)
    )
}
