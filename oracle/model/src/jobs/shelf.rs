//! Trees that are listed by hand, one behind the other over one text, with what the crate writes for each of them.

use super::listed::Listed;
use super::{List, Part, OUTSIDE};
use crate::damage::Case;
use crate::encode::Encode;
use crate::options::Edition;
use crate::record::SIZE;
use crate::samples::of_in;
use crate::shared::{moved, Shared};
use std::ops::Range;

const EDITIONS: [Edition; 2] = [Edition::Crate, Edition::Sqlite];

#[derive(Clone, Default)]
pub struct Shelf {
    shared: Shared,
    known: Vec<Known>,
}

/// A tree as it stands in the buffer, and its text in each edition.
#[derive(Clone)]
struct Known {
    tree: Vec<u8>,
    texts: [String; 2],
}

impl Shelf {
    /// The trees of these values, and a job for each.
    pub fn of(values: &[&dyn Encode]) -> (Shelf, Vec<Part>) {
        let mut shelf = Shelf::default();
        let jobs = values.iter().map(|value| shelf.put(*value));
        let jobs = jobs.collect();
        (shelf, jobs)
    }

    /// Puts the tree of a value behind the others.
    pub fn put(&mut self, value: &dyn Encode) -> Part {
        self.know(value);
        let (tree, text) = of_in(Edition::Crate, value).pair;
        part(self.shared.add(&tree, &text))
    }

    /// Puts a Cmd behind the others; answers jobs for the Cmd and for the statement inside it.
    pub fn put_nested(&mut self, cmd: &dyn Encode, statement: &dyn Encode) -> [Part; 2] {
        self.know(statement);
        let whole = self.put(cmd);
        let record = SIZE as u64;
        [whole, whole.from(record)]
    }

    /// Remembers the texts of a value whose parts are to stand where the text ends now.
    fn know(&mut self, value: &dyn Encode) {
        let (tree, _) = of_in(Edition::Crate, value).pair;
        self.known.push(Known {
            tree: moved(&tree, self.shared.text.len()),
            texts: EDITIONS.map(|edition| of_in(edition, value).text),
        });
    }

    /// Puts any tree and text behind the others. A job for it must be refused.
    pub fn put_case(&mut self, case: &Case) -> Part {
        part(self.shared.add(&case.tree, &case.text))
    }

    /// Puts bytes between the trees.
    pub fn put_bytes(&mut self, bytes: &[u8]) {
        self.shared.trees.extend(bytes);
    }

    /// The same trees with more text behind what they name.
    pub fn with_more_text(&self, more: &[u8]) -> Shelf {
        let mut shelf = self.clone();
        shelf.shared.text.extend(more);
        shelf
    }

    /// The bytes of the buffer, and of the text.
    pub fn lengths(&self) -> (u64, usize) {
        (self.shared.trees.len() as u64, self.shared.text.len())
    }

    /// These jobs, with options and so much room.
    pub fn listed(&self, options: u32, jobs: &[Part], room: usize) -> Listed {
        let list = List {
            options,
            jobs: jobs.to_vec(),
            trees: self.shared.trees.clone(),
            text: self.shared.text.clone(),
        };
        let answer = |job: &Part| match list.case(job) {
            None => Err(OUTSIDE),
            Some(case) => self.answer(&case),
        };
        let answers = jobs.iter().map(answer).collect();
        Listed {
            list,
            answers,
            room,
        }
    }

    /// The model's refusal, or the text that is known.
    fn answer(&self, case: &Case) -> Result<String, (u32, u32)> {
        match case.refusal() {
            (0, _) => {
                let known = self.known.iter().find(|known| known.tree == case.tree);
                let edition = Edition::of(case.options) as usize;
                Ok(known.expect("a known tree").texts[edition].clone())
            }
            refusal => Err(refusal),
        }
    }
}

fn part(place: Range<usize>) -> Part {
    Part {
        start: place.start as u64,
        length: place.len() as u64,
    }
}
