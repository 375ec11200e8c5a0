//! Many trees at once (request i): tables over one text as jobs, beside the crate and beside our own single calls.

use crate::inputs;
use crate::item::{done, Item};
use crate::subject::render;
use calls::{kinyandoma_render_jobs, Job};
use model::record::MOST_BYTES;
use model::shared::Shared;
use std::ops::Range;

/// Room that is ample for any of the batches.
const AMPLE: usize = 1 << 20;
/// What a text is filled up with.
const FILLER: u8 = b'x';
/// So many jobs over the longest text, one after the other.
const GROWING: [usize; 4] = [1, 10, 100, 200];

/// One way from the tables to their texts.
#[derive(Clone, Copy, PartialEq)]
pub enum Way {
    /// The crate shows each value in a new String.
    CrateValue,
    /// Single calls of render, each with the table's own short text, one text behind the other.
    OwnTexts,
    /// Single calls of render, each with the text of all.
    SharedText,
    /// One call for all, with ample room.
    Jobs,
    /// One call for all, with just the room that is needed.
    JobsExact,
}

pub const WAYS: [Way; 5] = [
    Way::CrateValue,
    Way::OwnTexts,
    Way::SharedText,
    Way::Jobs,
    Way::JobsExact,
];

/// Tables whose trees stand one behind the other in one buffer, and whose texts do in one text.
pub struct Batch {
    items: Vec<Item>,
    shared: Shared,
    places: Vec<Range<usize>>,
    jobs: Vec<Job>,
    out: Vec<u8>,
    exact: Vec<u8>,
}

impl Batch {
    /// All tables of the schema.
    pub fn of_schema() -> Batch {
        let items = inputs::tables();
        let count = items.len();
        Batch::new(items, count)
    }

    /// The first tables of the schema over one text of the greatest length, ever more of them.
    pub fn growing() -> Vec<Batch> {
        let batch = |count: &usize| {
            let mut batch = Batch::new(inputs::tables(), *count);
            batch.shared.text.resize(MOST_BYTES, FILLER);
            batch
        };
        GROWING.iter().map(batch).collect()
    }

    /// The trees and texts of all tables are shared; the first ones are jobs.
    fn new(mut items: Vec<Item>, count: usize) -> Batch {
        let mut shared = Shared::default();
        let place = |item: &Item| shared.add(&item.tree, &item.text);
        let mut places: Vec<Range<usize>> = items.iter().map(place).collect();
        assert!(shared.text.len() <= MOST_BYTES, "one text for all tables");
        items.truncate(count);
        places.truncate(count);
        let job = |place: &Range<usize>| Job::new(place.start as u64, place.len() as u64);
        let written = items.iter().map(|item| item.expected.len()).sum();
        Batch {
            jobs: places.iter().map(job).collect(),
            out: vec![0; AMPLE],
            exact: vec![0; written],
            items,
            shared,
            places,
        }
    }

    pub fn count(&self) -> usize {
        self.jobs.len()
    }

    pub fn records(&self) -> usize {
        self.items.iter().map(Item::records).sum()
    }

    /// Bytes of the texts that are written.
    pub fn written(&self) -> usize {
        self.exact.len()
    }

    /// Bytes of the text that all share.
    pub fn text(&self) -> usize {
        self.shared.text.len()
    }

    /// Every table once; answers how many bytes were written.
    pub fn pass(&mut self, way: Way) -> usize {
        let (shared, jobs) = (&self.shared, &mut self.jobs);
        match way {
            Way::CrateValue => self.items.iter().map(|item| item.value.text().len()).sum(),
            Way::OwnTexts => {
                let pairs = self
                    .items
                    .iter()
                    .map(|item| (&item.tree[..], &item.text[..]));
                singles(pairs, &mut self.out)
            }
            Way::SharedText => {
                let trees = self.places.iter().map(|place| &shared.trees[place.clone()]);
                singles(trees.map(|tree| (tree, &shared.text[..])), &mut self.out)
            }
            Way::Jobs => render_jobs(jobs, shared, &mut self.out),
            Way::JobsExact => render_jobs(jobs, shared, &mut self.exact),
        }
    }

    /// Every way of ours comes to the crate's texts, one behind the other; or which does not.
    pub fn verify(&mut self) -> Result<(), String> {
        let expected: String = self.items.iter().map(|item| &item.expected[..]).collect();
        let shown: String = self.items.iter().map(|item| item.value.text()).collect();
        let mut agree = shown == expected;
        for way in &WAYS[1..] {
            self.out.fill(0);
            self.exact.fill(0);
            let written = self.pass(*way);
            let out = match way {
                Way::JobsExact => &self.exact,
                _ => &self.out,
            };
            let rest = &out[expected.len()..];
            agree &= written == expected.len()
                && out.starts_with(expected.as_bytes())
                && rest.iter().all(|&byte| byte == 0)
                && self.jobs_agree(*way);
        }
        match agree {
            true => Ok(()),
            false => Err(format!("{} jobs: not the crate's texts", self.count())),
        }
    }

    /// After a way that is jobs, each job says that its text stands behind the one before.
    fn jobs_agree(&self, way: Way) -> bool {
        let mut start = 0;
        let agrees = |(job, item): (&Job, &Item)| {
            let length = item.expected.len() as u64;
            let agrees = (job.refusal, job.place, job.out_start) == (0, length, start);
            start += length;
            agrees
        };
        let is_jobs = matches!(way, Way::Jobs | Way::JobsExact);
        !is_jobs || self.jobs.iter().zip(&self.items).all(agrees)
    }
}

/// Single calls, one text behind the other.
fn singles<'a>(pairs: impl Iterator<Item = (&'a [u8], &'a [u8])>, out: &mut [u8]) -> usize {
    let mut written = 0;
    for (tree, text) in pairs {
        let answer = render(tree, text, &mut out[written..]);
        let length = answer.place as usize;
        debug_assert_eq!(answer, done(length));
        written += length;
    }
    written
}

/// One call for all of them, without options.
fn render_jobs(jobs: &mut [Job], shared: &Shared, out: &mut [u8]) -> usize {
    let (trees, text) = (&shared.trees, &shared.text);
    // All parts are valid for their lengths, and what is written overlaps nothing.
    let written = unsafe {
        kinyandoma_render_jobs(
            0,
            jobs.as_mut_ptr(),
            jobs.len(),
            trees.as_ptr(),
            trees.len(),
            text.as_ptr(),
            text.len(),
            out.as_mut_ptr(),
            out.len(),
        )
    };
    written as usize
}
