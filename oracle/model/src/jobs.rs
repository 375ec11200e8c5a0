//! Many trees at once (request i): what a list of jobs answers and writes, by document 02 and the readings R14 and R15.

pub mod listed;
mod shelf;

use crate::damage::Case;
use tokens::encoding::Refusal;

/// The refusal of a job that is outside the tree buffer, before all else.
pub const OUTSIDE: Refusal = (1, 0);
/// The number of a text that the room is too short for.
pub const NO_ROOM: u32 = 8;

/// The bytes of the tree buffer that a job says are its tree: any two numbers.
#[derive(Clone, Copy, Debug, PartialEq, Eq, Hash)]
pub struct Part {
    pub start: u64,
    pub length: u64,
}

impl Part {
    /// Without so many bytes at its beginning.
    pub fn from(self, bytes: u64) -> Part {
        Part {
            start: self.start + bytes,
            length: self.length - bytes,
        }
    }
}

/// A list of jobs, and what is lent with it besides the output.
#[derive(Clone, Debug)]
pub struct List {
    pub options: u32,
    pub jobs: Vec<Part>,
    pub trees: Vec<u8>,
    pub text: Vec<u8>,
}

/// What a tree comes to where there is room: its text, or the refusal.
pub type Answer = Result<String, Refusal>;

/// What a job says after the call.
#[derive(Clone, Copy, Debug, PartialEq)]
pub struct Said {
    pub refusal: u32,
    pub place: u32,
    pub start: usize,
}

/// What each job says, and all bytes that were written.
#[derive(Clone, Debug, Default, PartialEq)]
pub struct Outcome {
    pub said: Vec<Said>,
    pub written: Vec<u8>,
}

impl List {
    /// The tree of a job. None if its start is past the end of the buffer, or fewer bytes stand behind it than it says.
    pub fn tree(&self, job: &Part) -> Option<&[u8]> {
        let start = usize::try_from(job.start).ok()?;
        let length = usize::try_from(job.length).ok()?;
        self.trees.get(start..)?.get(..length)
    }

    /// The tree of a job with the one text and the options: what the single call is made for. None if the job is outside.
    pub fn case(&self, job: &Part) -> Option<Case> {
        let pair = (self.tree(job)?.to_vec(), self.text.clone());
        Some(Case::from(pair).with(self.options))
    }
}

/// Each job in order is the single call on the room that is left. A refused one adds nothing, and the next go on.
pub fn outcome(answers: &[Answer], room: usize) -> Outcome {
    let mut outcome = Outcome::default();
    for answer in answers {
        let start = outcome.written.len();
        let (refusal, place) = match answer {
            Err(refusal) => *refusal,
            Ok(text) if text.len() > room - start => (NO_ROOM, text.len() as u32),
            Ok(text) => {
                outcome.written.extend(text.bytes());
                (0, text.len() as u32)
            }
        };
        outcome.said.push(Said {
            refusal,
            place,
            start,
        });
    }
    outcome
}
