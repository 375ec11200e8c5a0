//! One call of kinyandoma_render_jobs: what is lent, and what comes of it; and the single calls that it stands for.

use crate::guarded::{Fence, Fences, Guarded};
#[cfg(feature = "selftest")]
use crate::jobs::stand_in::kinyandoma_render_jobs;
#[cfg(feature = "selftest")]
use crate::trees::stand_in::kinyandoma_render_with;
#[cfg(not(feature = "selftest"))]
use calls::{kinyandoma_render_jobs, kinyandoma_render_with};
use calls::{Answer, Job};
use model::jobs::{self, List, OUTSIDE};
use std::mem::{size_of, size_of_val};
use std::slice::from_raw_parts;

/// What stands around the jobs, and around trees, text and output.
pub struct Around {
    pub jobs: Fence,
    pub others: Fences,
}

/// A list, with what stands in the jobs and in the output before.
pub struct Call<'a> {
    pub list: &'a List,
    pub jobs: Vec<Job>,
    pub output: Vec<u8>,
}

/// The answer, and what stands in the lent parts afterwards.
#[derive(PartialEq)]
pub struct Outcome {
    pub answer: u64,
    pub jobs: Vec<Job>,
    pub output: Vec<u8>,
    /// Whether trees, text and all bytes around the lent parts are as before.
    pub rest_untouched: bool,
}

/// All parts of a call, each with what stands around it.
struct Lent {
    jobs: Guarded,
    trees: Guarded,
    text: Guarded,
    output: Guarded,
}

impl Call<'_> {
    /// What the library makes of it.
    pub fn observed(&self, around: &Around) -> Outcome {
        let mut lent = self.lent(around);
        let jobs = lent.jobs.start().cast::<Job>();
        assert!(jobs.is_aligned(), "jobs at an address of theirs");
        // Sound if the library keeps to the lent parts; the guards tell of small trespasses.
        let answer = unsafe {
            kinyandoma_render_jobs(
                self.list.options,
                jobs,
                self.jobs.len(),
                lent.trees.start(),
                self.list.trees.len(),
                lent.text.start(),
                self.list.text.len(),
                lent.output.start(),
                self.output.len(),
            )
        };
        self.outcome(answer, &lent)
    }

    /// The same by our own single calls in order, each on the room that is left.
    pub fn by_single_calls(&self, around: &Around) -> Outcome {
        let mut lent = self.lent(around);
        let mut jobs = self.jobs.clone();
        let mut written = 0;
        for (job, part) in jobs.iter_mut().zip(&self.list.jobs) {
            let answer = match self.list.tree(part) {
                None => answer_of(OUTSIDE),
                Some(tree) => {
                    let start = part.start as usize;
                    single(
                        self.list.options,
                        &mut lent,
                        start..start + tree.len(),
                        written,
                    )
                }
            };
            job.refusal = answer.number.into();
            job.place = answer.place.into();
            job.out_start = written as u64;
            written += if answer.number == 0 {
                answer.place as usize
            } else {
                0
            };
        }
        let mut outcome = self.outcome(written as u64, &lent);
        outcome.jobs = jobs;
        outcome
    }

    fn lent(&self, around: &Around) -> Lent {
        let [trees, text, output] = around.others;
        Lent {
            jobs: Guarded::new(&bytes_of(&self.jobs), around.jobs),
            trees: Guarded::new(&self.list.trees, trees),
            text: Guarded::new(&self.list.text, text),
            output: Guarded::new(&self.output, output),
        }
    }

    fn outcome(&self, answer: u64, lent: &Lent) -> Outcome {
        let parts = [&lent.jobs, &lent.trees, &lent.text, &lent.output];
        let guards_whole = parts.iter().all(|part| part.guards_whole());
        let trees_kept = lent.trees.inner() == self.list.trees;
        let text_kept = lent.text.inner() == self.list.text;
        Outcome {
            answer,
            jobs: jobs_in(lent.jobs.inner()),
            output: lent.output.inner().to_vec(),
            rest_untouched: guards_whole && trees_kept && text_kept,
        }
    }

    /// What the model says comes of it: only refusal, place and start of each job, and the bytes that are written.
    pub fn expected(&self, model: &jobs::Outcome) -> Outcome {
        let mut jobs = self.jobs.clone();
        for (job, said) in jobs.iter_mut().zip(&model.said) {
            job.refusal = said.refusal.into();
            job.place = said.place.into();
            job.out_start = said.start as u64;
        }
        let mut output = self.output.clone();
        output[..model.written.len()].copy_from_slice(&model.written);
        Outcome {
            answer: model.written.len() as u64,
            jobs,
            output,
            rest_untouched: true,
        }
    }
}

fn answer_of((number, place): (u32, u32)) -> Answer {
    Answer { number, place }
}

/// One tree of the buffer, on the room that is left behind so many bytes.
fn single(options: u32, lent: &mut Lent, tree: std::ops::Range<usize>, written: usize) -> Answer {
    let (text_len, room) = (lent.text.inner().len(), lent.output.inner().len() - written);
    // The tree is inside the buffer, and no more was written than there is room for.
    let packed = unsafe {
        kinyandoma_render_with(
            options,
            lent.trees.start().add(tree.start),
            tree.len(),
            lent.text.start(),
            text_len,
            lent.output.start().add(written),
            room,
        )
    };
    Answer::unpacked(packed)
}

/// The bytes of the jobs as they lie in memory.
fn bytes_of(jobs: &[Job]) -> Vec<u8> {
    // A job is five numbers, and no byte of it is left unset.
    unsafe { from_raw_parts(jobs.as_ptr().cast::<u8>(), size_of_val(jobs)) }.to_vec()
}

/// The jobs that lie in these bytes, which begin at an address of theirs.
fn jobs_in(bytes: &[u8]) -> Vec<Job> {
    let count = bytes.len() / size_of::<Job>();
    // Any bytes are numbers.
    unsafe { from_raw_parts(bytes.as_ptr().cast::<Job>(), count) }.to_vec()
}
