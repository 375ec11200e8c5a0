//! One call: what is lent, and what comes of it.

use crate::guarded::{Fence, Fences, Guarded, SHIFTS};
#[cfg(feature = "selftest")]
use crate::profile::stand_in::kinyandoma_profile;
#[cfg(feature = "selftest")]
use crate::trees::stand_in::{
    kinyandoma_measure, kinyandoma_measure_with, kinyandoma_render, kinyandoma_render_with,
};
use calls::Answer;
#[cfg(not(feature = "selftest"))]
use calls::{
    kinyandoma_measure, kinyandoma_measure_with, kinyandoma_profile, kinyandoma_render,
    kinyandoma_render_with,
};
use model::damage::Case;
use model::profile::{first_break, BROKEN};
use model::samples::Judged;

/// The number of an output that is too short.
const NO_ROOM: u32 = 8;

/// A call that takes options, with the case's, or one that takes none.
#[derive(Clone)]
pub struct Call {
    pub with_options: bool,
    pub asked: Asked,
}

/// What is asked for.
#[derive(Clone)]
pub enum Asked {
    Measure,
    /// The field profile, for which there is only a call with options.
    Profile,
    /// With what stands in the output before.
    Render(Vec<u8>),
}

/// The answer, and what stands in the lent parts afterwards.
#[derive(PartialEq)]
pub struct Outcome {
    pub answer: Answer,
    pub output: Vec<u8>,
    /// Whether tree, text and all bytes around the lent parts are as before.
    pub rest_untouched: bool,
}

/// A tree and its text, with what stands around them and around an output.
pub struct Lent<'a> {
    case: &'a Case,
    tree: Guarded,
    text: Guarded,
    output: Fence,
}

/// Known bytes, each part moved by another digit of the shift.
pub fn by_bytes(shift: usize) -> Fences {
    let digit = |power: u32| Fence::Bytes(shift / SHIFTS.pow(power) % SHIFTS);
    [digit(0), digit(1), digit(2)]
}

impl Lent<'_> {
    /// The fences are those of the tree, the text and the output.
    pub fn new(case: &Case, fences: Fences) -> Lent<'_> {
        Lent {
            case,
            tree: Guarded::new(&case.tree, fences[0]),
            text: Guarded::new(&case.text, fences[1]),
            output: fences[2],
        }
    }

    /// What the library makes of it.
    pub fn observed(&mut self, call: &Call) -> Outcome {
        let before = call.before();
        let mut output = Guarded::new(before, self.output);
        let (out, out_len) = (output.start(), before.len());
        let (tree_len, text_len) = (self.case.tree.len(), self.case.text.len());
        let (tree, text) = (self.tree.start(), self.text.start());
        let options = self.case.options;
        // Sound if the library keeps to the lent parts; the guards tell of small trespasses.
        let packed = unsafe {
            match (&call.asked, call.with_options) {
                (Asked::Measure, false) => kinyandoma_measure(tree, tree_len, text, text_len),
                (Asked::Measure, true) => {
                    kinyandoma_measure_with(options, tree, tree_len, text, text_len)
                }
                (Asked::Profile, _) => kinyandoma_profile(options, tree, tree_len, text, text_len),
                (Asked::Render(_), false) => {
                    kinyandoma_render(tree, tree_len, text, text_len, out, out_len)
                }
                (Asked::Render(_), true) => {
                    kinyandoma_render_with(options, tree, tree_len, text, text_len, out, out_len)
                }
            }
        };
        Outcome {
            answer: Answer::unpacked(packed),
            output: output.inner().to_vec(),
            rest_untouched: output.guards_whole() && self.untouched(),
        }
    }

    fn untouched(&self) -> bool {
        let guards = self.tree.guards_whole() && self.text.guards_whole();
        guards && self.tree.inner() == self.case.tree && self.text.inner() == self.case.text
    }
}

impl Call {
    /// What stands in the output before; only render has one.
    pub fn before(&self) -> &[u8] {
        match &self.asked {
            Asked::Measure | Asked::Profile => &[],
            Asked::Render(before) => before,
        }
    }

    /// 8 comes last, 11 behind measure's refusals, and a refusal writes nothing.
    pub fn expected(&self, judged: &Judged) -> Outcome {
        let before = self.before().to_vec();
        let (number, place, output) = match (&judged.expected, &self.asked) {
            (Err((number, place)), _) => (*number, *place, before),
            (Ok(text), Asked::Measure) => (0, text.len() as u32, before),
            (Ok(text), Asked::Profile) => match first_break(&judged.case.tree) {
                None => (0, text.len() as u32, before),
                Some(index) => (BROKEN, index, before),
            },
            (Ok(text), Asked::Render(_)) if text.len() > before.len() => {
                (NO_ROOM, text.len() as u32, before)
            }
            (Ok(text), Asked::Render(_)) => (0, text.len() as u32, over(before, text.as_bytes())),
        };
        Outcome {
            answer: Answer { number, place },
            output,
            rest_untouched: true,
        }
    }
}

/// The text from 0 on, and beyond it what was there.
fn over(mut before: Vec<u8>, text: &[u8]) -> Vec<u8> {
    before[..text.len()].copy_from_slice(text);
    before
}
