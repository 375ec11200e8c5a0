//! One call of kinyandoma_lexeme: what is lent, and what comes of it.

use crate::guarded::{Fence, Guarded};
#[cfg(feature = "selftest")]
use crate::lexemes::stand_in::kinyandoma_lexeme;
#[cfg(not(feature = "selftest"))]
use calls::kinyandoma_lexeme;
use std::mem::size_of;

/// What stands in both words before a call.
const UNSET: usize = usize::MAX / 5;

/// What a call answers and writes, with places of the whole text.
#[derive(Clone, Copy, Debug, PartialEq)]
pub struct Answer {
    pub kind: u32,
    pub start: usize,
    pub rest: usize,
}

/// A text and the two words, each with what stands around it.
pub struct Lent {
    text: Guarded,
    start: Guarded,
    rest: Guarded,
}

impl Lent {
    /// The fences are those of the text, of `start` and of `rest`.
    pub fn new(bytes: &[u8], [text, start, rest]: [Fence; 3]) -> Lent {
        let word = |fence: Fence| Guarded::new(&[0; size_of::<usize>()], fence.aligned::<usize>());
        Lent {
            text: Guarded::new(bytes, text),
            start: word(start),
            rest: word(rest),
        }
    }

    /// What the library makes of the text from a place on.
    pub fn answer(&mut self, from: usize) -> Answer {
        let length = self.text.inner().len() - from;
        let [start, rest] = [&mut self.start, &mut self.rest].map(word);
        // Sound if the library keeps to the lent parts; the guards tell of small trespasses.
        let kind = unsafe { kinyandoma_lexeme(self.text.start().add(from), length, start, rest) };
        // Both words are ours, and any bytes are numbers.
        let [start, rest] = [start, rest].map(|word| unsafe { word.read() });
        Answer {
            kind,
            start: from.wrapping_add(start),
            rest: from.wrapping_add(rest),
        }
    }

    /// Whether the text and all bytes around the lent parts are as before.
    pub fn untouched(&self, text: &[u8]) -> bool {
        let parts = [&self.text, &self.start, &self.rest];
        self.text.inner() == text && parts.iter().all(|part| part.guards_whole())
    }
}

/// Where the word stands, with a number in it that no call writes.
fn word(lent: &mut Guarded) -> *mut usize {
    let word = lent.start().cast::<usize>();
    assert!(word.is_aligned(), "a word at an address of its own");
    // The part has the bytes of a word.
    unsafe { word.write(UNSET) };
    word
}
