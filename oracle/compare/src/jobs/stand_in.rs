//! A small kinyandoma_render_jobs in Rust, over the stand-in for single trees, with faults that can be planted in it.

use crate::faults::{planted, Fault};
use crate::trees::stand_in::rendered;
use calls::Job;
use model::jobs::{NO_ROOM, OUTSIDE};
use std::slice::{from_raw_parts, from_raw_parts_mut};
use tokens::encoding::{text_in, Refusal};

/// All that is lent with the jobs, to be read.
struct Shared<'a> {
    options: u32,
    trees: &'a [u8],
    text: &'a [u8],
}

/// # Safety
/// The four parts must be valid for their lengths.
#[allow(clippy::too_many_arguments)]
pub unsafe extern "C" fn kinyandoma_render_jobs(
    options: u32,
    jobs: *mut Job,
    count: usize,
    trees: *const u8,
    trees_len: usize,
    text: *const u8,
    text_len: usize,
    out: *mut u8,
    out_len: usize,
) -> u64 {
    let jobs = from_raw_parts_mut(jobs, count);
    let shared = Shared {
        options,
        trees: from_raw_parts(trees, trees_len),
        text: from_raw_parts(text, text_len),
    };
    // One byte more is lent than the caller said, for the faults that write it.
    let out = from_raw_parts_mut(out, out_len + 1);
    render_jobs(&shared, jobs, out, out_len) as u64
}

/// Each job in order; answers the bytes written in all.
fn render_jobs(shared: &Shared, jobs: &mut [Job], out: &mut [u8], room: usize) -> usize {
    let mut at = 0;
    for (index, job) in jobs.iter_mut().enumerate() {
        let answer = shared.answer(job, index);
        let (refusal, place, written) = settle(answer, out, at, room);
        say(job, refusal, place, at);
        at += written;
        let ends = match refusal {
            0 => false,
            NO_ROOM => planted(Fault::NoRoomEndsWalk) || planted(Fault::RefusedEndsWalk),
            _ => planted(Fault::RefusedEndsWalk),
        };
        if ends {
            break;
        }
    }
    if planted(Fault::ByteBehindLast) && at < room {
        out[at] ^= 1;
    }
    at
}

impl Shared<'_> {
    /// What the job's tree comes to where there is room.
    fn answer(&self, job: &Job, index: usize) -> Result<Vec<u8>, (u32, u64)> {
        let place = if planted(Fault::OutsidePlaceIsStart) {
            job.tree_start
        } else {
            u64::from(OUTSIDE.1)
        };
        let outside = Err((OUTSIDE.0, place));
        let Some(tree) = self.tree(job) else {
            let broken = planted(Fault::OutsideAfterText).then(|| text_in(self.text).err());
            return broken
                .flatten()
                .map_or(outside, |refusal| Err(wide(refusal)));
        };
        let options = if planted(Fault::JobsWithoutOptions) {
            0
        } else {
            self.options
        };
        let unchecked = planted(Fault::TextOfFirstJobOnly) && index > 0;
        match text_in(self.text) {
            Err(_) if unchecked => rendered(options, tree, b"").map_err(wide),
            _ => rendered(options, tree, self.text).map_err(wide),
        }
    }

    /// The bytes of the job's tree, if it is inside the buffer.
    fn tree(&self, job: &Job) -> Option<&[u8]> {
        let (mut start, mut length) = (job.tree_start, job.tree_len);
        if planted(Fault::LowHalfOnly) {
            start &= u64::from(u32::MAX);
            length &= u64::from(u32::MAX);
        }
        let end = match planted(Fault::SumWraps) {
            true => start.wrapping_add(length),
            false => start.checked_add(length)?,
        };
        let before_end = self.trees.get(..usize::try_from(end).ok()?)?;
        // With the fault the end of a sum that wrapped is inside, although the start is not.
        Some(before_end.get(start as usize..).unwrap_or(before_end))
    }
}

/// A refusal whose place may be any number.
fn wide((number, place): Refusal) -> (u32, u64) {
    (number, u64::from(place))
}

/// Refusal, place, and how far the next text moves on.
fn settle(
    answer: Result<Vec<u8>, (u32, u64)>,
    out: &mut [u8],
    at: usize,
    room: usize,
) -> (u32, u64, usize) {
    let text = match answer {
        Ok(text) => text,
        Err((number, place)) => return (number, place, 0),
    };
    let length = text.len();
    let taken = match () {
        _ if planted(Fault::WrittenPastRoom) => length <= room - at + 1,
        _ if planted(Fault::CutAtRoom) => true,
        _ if planted(Fault::RoomFromStart) => length <= room,
        _ => length <= room - at,
    };
    if !taken {
        let counted = if planted(Fault::RefusedIsCounted) {
            length.min(room - at)
        } else {
            0
        };
        return (NO_ROOM, length as u64, counted);
    }
    let end = match planted(Fault::WrittenPastRoom) {
        true => at + length,
        false => (at + length).min(room),
    };
    out[at..end].copy_from_slice(&text[..end - at]);
    let later = planted(Fault::NextOneLater) && end < room;
    (0, length as u64, end.min(room) - at + usize::from(later))
}

/// Writes into the job.
fn say(job: &mut Job, refusal: u32, place: u64, at: usize) {
    (job.refusal, job.place) = match planted(Fault::PlaceAndRefusalExchanged) {
        true => (place, u64::from(refusal)),
        false => (u64::from(refusal), place),
    };
    job.out_start = match planted(Fault::RefusedStartsAtZero) && refusal > 0 {
        true => 0,
        false => at as u64,
    };
    if planted(Fault::JobPartTouched) {
        job.tree_start = job.tree_start.wrapping_add(job.tree_len);
    }
}
