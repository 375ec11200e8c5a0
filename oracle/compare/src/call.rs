//! One call of kinyandoma_append: what is lent, and what comes of it.

use crate::guarded::{Fence, Fences, Guarded, SHIFTS};
use crate::hex::hex;
#[cfg(feature = "selftest")]
use crate::stand_in::kinyandoma_append;
#[cfg(not(feature = "selftest"))]
use calls::kinyandoma_append;
use calls::{number, Answer, Stream, COLUMN, COUNT, LINE, RECORD};
use std::fmt;
use tokens::position::Position;

/// All that a call is given, as it stands before.
#[derive(Clone, Debug)]
pub struct Call {
    pub record: Vec<u8>,
    pub output: Vec<u8>,
    pub token: u16,
    pub value: Vec<u8>,
}

/// The answer, and what stands in the lent parts afterwards.
#[derive(Clone, Debug, PartialEq)]
pub struct Outcome {
    pub answer: Answer,
    pub record: Vec<u8>,
    pub output: Vec<u8>,
    /// Whether the value and all bytes around the lent parts are as before.
    pub rest_untouched: bool,
}

impl Call {
    /// What the library makes of it, between known bytes.
    pub fn observed(&self) -> Outcome {
        let shift = usize::from(self.token) % SHIFTS;
        let shifts = [shift, shift / 2, SHIFTS - 1 - shift];
        self.observed_within(shifts.map(Fence::Bytes))
    }

    /// What the library makes of it, with record, output and value lent so.
    pub fn observed_within(&self, fences: Fences) -> Outcome {
        let mut record = Guarded::new(&self.record, fences[0]);
        let mut output = Guarded::new(&self.output, fences[1]);
        let mut value = Guarded::new(&self.value, fences[2]);
        // Sound if the library keeps to the lent parts; the guards tell of small trespasses.
        let packed = unsafe {
            kinyandoma_append(
                record.start(),
                self.record.len(),
                output.start(),
                self.output.len(),
                self.token,
                value.start(),
                self.value.len(),
            )
        };
        let guards_whole = record.guards_whole() && output.guards_whole() && value.guards_whole();
        Outcome {
            answer: Answer::unpacked(packed),
            rest_untouched: guards_whole && value.inner() == self.value,
            record: record.inner().to_vec(),
            output: output.inner().to_vec(),
        }
    }

    /// Refused: nothing changes.
    pub fn refused(&self, number: u32, place: usize) -> Outcome {
        Outcome {
            answer: Answer {
                number,
                place: place as u32,
            },
            record: self.record.clone(),
            output: self.output.clone(),
            rest_untouched: true,
        }
    }

    /// Done: the bytes stand at the count, and the record says where they end.
    pub fn done(&self, added: &[u8], spaced: bool, end: Position) -> Outcome {
        let after = Stream {
            spaced,
            count: self.count() + added.len() as u64,
            line: end.line,
            column: end.column,
        };
        Outcome {
            answer: Answer {
                number: 0,
                place: added.len() as u32,
            },
            record: after.record().to_vec(),
            output: self.output_with(added),
            rest_untouched: true,
        }
    }

    /// The output with these bytes at the count, where there is room for them.
    fn output_with(&self, added: &[u8]) -> Vec<u8> {
        let count = self.count() as usize;
        let mut output = self.output.clone();
        output[count..count + added.len()].copy_from_slice(added);
        output
    }

    /// The record's count; the record must have all its bytes.
    pub fn count(&self) -> u64 {
        number(&self.record, COUNT)
    }

    /// The record's line and column; the record must have all its bytes.
    pub fn position(&self) -> Position {
        Position {
            line: number(&self.record, LINE),
            column: number(&self.record, COLUMN),
        }
    }
}

impl fmt::Display for Call {
    fn fmt(&self, f: &mut fmt::Formatter<'_>) -> fmt::Result {
        let (number, bit) = (self.token & 0x7FFF, self.token >> 15);
        writeln!(f, "  token    {number}, bit 15 {bit}")?;
        writeln!(f, "  value    {}", hex(&self.value))?;
        writeln!(f, "  record   {}", told_record(&self.record))?;
        write!(f, "  output   {}", hex(&self.output))
    }
}

impl Outcome {
    /// For a reader who has the call too: of the output only what changed.
    pub fn told_after(&self, call: &Call) -> String {
        let Answer { number, place } = self.answer;
        let rest = if self.rest_untouched {
            "untouched"
        } else {
            "CHANGED"
        };
        let record = told_record(&self.record);
        let output = change(&call.output, &self.output);
        format!("  answer   {number}, place {place}\n  record   {record}\n  output   {output}\n  the rest {rest}")
    }
}

/// The record in hex and, if it has all its bytes, its numbers.
fn told_record(record: &[u8]) -> String {
    if record.len() != RECORD {
        return hex(record);
    }
    let [count, line, column] = [COUNT, LINE, COLUMN].map(|place| number(record, place));
    format!(
        "{}: count {count}, line {line}, column {column}",
        hex(record)
    )
}

fn change(before: &[u8], after: &[u8]) -> String {
    let differs = |place: &usize| before[*place] != after[*place];
    let first = (0..before.len()).find(differs);
    let last = (0..before.len()).rev().find(differs);
    match (first, last) {
        (Some(first), Some(last)) => format!("from byte {first} on {}", hex(&after[first..=last])),
        _ => "as before".to_string(),
    }
}
