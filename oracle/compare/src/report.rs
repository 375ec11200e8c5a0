//! Counts of answers, and the first difference.

use crate::call::{Call, Outcome};
use crate::guarded::Fences;
use std::fmt;

/// The numbers of an answer.
pub const ANSWERS: [usize; 13] = [0, 1, 2, 3, 4, 5, 6, 7, 8, 9, 10, 11, 12];
/// Those of measure: 8 is an answer of render only, and 11 of the profile.
pub const MEASURED: [usize; 11] = [0, 1, 2, 3, 4, 5, 6, 7, 9, 10, 12];
/// How often each of them came, at its own place.
pub type Numbers = [u64; 13];

/// How often each answer number came.
#[derive(Default)]
pub struct Counts {
    by_number: Numbers,
}

/// A call that the library settles otherwise than expected.
pub struct Difference {
    part: &'static str,
    call: Call,
    expected: Outcome,
    observed: Outcome,
}

impl Counts {
    pub fn total(&self) -> u64 {
        self.by_number.iter().sum()
    }

    pub fn by_number(&self) -> &Numbers {
        &self.by_number
    }

    /// Runs the call, and counts it if it comes out as expected.
    pub fn check(
        &mut self,
        part: &'static str,
        call: &Call,
        expected: Outcome,
    ) -> Result<Outcome, Box<Difference>> {
        self.settle(part, call, expected, call.observed())
    }

    /// The same, with the parts lent so.
    pub fn check_within(
        &mut self,
        fences: Fences,
        part: &'static str,
        call: &Call,
        expected: Outcome,
    ) -> Result<Outcome, Box<Difference>> {
        self.settle(part, call, expected, call.observed_within(fences))
    }

    fn settle(
        &mut self,
        part: &'static str,
        call: &Call,
        expected: Outcome,
        observed: Outcome,
    ) -> Result<Outcome, Box<Difference>> {
        if observed != expected {
            return Err(Box::new(Difference {
                part,
                call: call.clone(),
                expected,
                observed,
            }));
        }
        self.by_number[observed.answer.number as usize] += 1;
        Ok(observed)
    }
}

impl fmt::Display for Counts {
    fn fmt(&self, f: &mut fmt::Formatter<'_>) -> fmt::Result {
        for number in [0, 1, 2, 12, 4, 8] {
            write!(f, "  answer {number}: {}", self.by_number[number])?;
        }
        Ok(())
    }
}

impl fmt::Display for Difference {
    fn fmt(&self, f: &mut fmt::Formatter<'_>) -> fmt::Result {
        writeln!(f, "difference in {}", self.part)?;
        writeln!(f, "call\n{}", self.call)?;
        writeln!(f, "expected\n{}", self.expected.told_after(&self.call))?;
        write!(f, "observed\n{}", self.observed.told_after(&self.call))
    }
}
