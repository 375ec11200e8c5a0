//! Times, taken side by side.

use crate::item::Input;
use crate::subject::{Room, Subject};
use std::hint::black_box;

/// Each subject has a turn in each round.
const ROUNDS: usize = 41;
/// A turn lasts about so many nanoseconds.
const TURN: f64 = 4e6;
/// Nanoseconds in a second.
const SECOND: f64 = 1e9;

/// What Linux calls the clock of this thread's own time, which stands still while others run.
const THREAD: i32 = 3;

/// Seconds and nanoseconds, as Linux tells them.
#[repr(C)]
struct Told {
    seconds: i64,
    nanoseconds: i64,
}

extern "C" {
    fn clock_gettime(clock: i32, told: *mut Told) -> i32;
}

/// Nanoseconds of one pass over an input: for each round, those of each subject.
pub struct Times {
    rounds: Vec<Vec<f64>>,
}

impl Times {
    /// Each subject in turn, round after round.
    pub fn new(input: &Input, subjects: &[Subject]) -> Times {
        let mut room = Room::new(input);
        Times::of(subjects.len(), &mut |at| {
            room.pass(subjects[at], black_box(input))
        })
    }

    /// So many subjects in turn; the function makes one pass of the subject at a place.
    pub fn of(subjects: usize, pass: &mut dyn FnMut(usize) -> usize) -> Times {
        let passes = (0..subjects).map(|at| passes_in_a_turn(&mut || pass(at)));
        let passes: Vec<u32> = passes.collect();
        let mut round = || {
            let turns = passes.iter().enumerate();
            let turns = turns.map(|(at, &passes)| turn(&mut || pass(at), passes));
            turns.collect()
        };
        let rounds = (0..ROUNDS).map(|_| round()).collect();
        Times { rounds }
    }

    /// The best round of the subject at a place.
    pub fn best(&self, at: usize) -> f64 {
        let times = self.rounds.iter().map(|round| round[at]);
        times.fold(f64::INFINITY, f64::min)
    }

    /// How often one takes the time of another: the middle of what the rounds say, each of which has both.
    pub fn ratio(&self, at: usize, to: usize) -> f64 {
        let ratios = self.rounds.iter().map(|round| round[at] / round[to]);
        let mut ratios: Vec<f64> = ratios.collect();
        ratios.sort_by(f64::total_cmp);
        ratios[ratios.len() / 2]
    }
}

/// Doubled until they last long enough.
fn passes_in_a_turn(pass: &mut dyn FnMut() -> usize) -> u32 {
    let mut passes = 1;
    while turn(pass, passes) * f64::from(passes) < TURN {
        passes *= 2;
    }
    passes
}

/// Nanoseconds of one pass.
fn turn(pass: &mut dyn FnMut() -> usize, passes: u32) -> f64 {
    let start = own_time();
    for _ in 0..passes {
        black_box(pass());
    }
    (own_time() - start) / f64::from(passes)
}

/// Nanoseconds that this thread has run.
fn own_time() -> f64 {
    let mut told = Told {
        seconds: 0,
        nanoseconds: 0,
    };
    // The call writes to its argument and nowhere else.
    let failed = unsafe { clock_gettime(THREAD, &mut told) };
    assert_eq!(failed, 0, "no clock of the thread's time");
    told.seconds as f64 * SECOND + told.nanoseconds as f64
}
