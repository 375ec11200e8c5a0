//! What is held side by side: the crate's ways from a value to its text, and the library's calls.

use crate::item::{done, Given, Input, Item};
use calls::{kinyandoma_append, kinyandoma_measure, kinyandoma_render, Answer, Stream};
use turso_parser::ast::fmt::{TokenStream, WriteTokenStream};

/// One way through an item.
#[derive(Clone, Copy, PartialEq)]
pub enum Subject {
    /// The crate shows the value in a new String.
    CrateValue,
    /// The crate's stream writes collected tokens to a new String.
    CrateTokens,
    /// The library's measure.
    Measure,
    /// The library's render, with room enough.
    Render,
    /// The crate's stream, token by token, to a String that has room.
    CrateAppend,
    /// The library's append, token by token, with room enough.
    Append,
}

pub const TEXTS: [Subject; 4] = [
    Subject::CrateValue,
    Subject::CrateTokens,
    Subject::Measure,
    Subject::Render,
];

pub const APPENDS: [Subject; 2] = [Subject::CrateAppend, Subject::Append];

/// Memory that a subject writes to, made before it is timed.
pub struct Room {
    out: Vec<u8>,
    string: String,
}

impl Room {
    pub fn new(input: &Input) -> Room {
        Room {
            out: vec![0; input.room()],
            string: String::with_capacity(input.room()),
        }
    }

    /// Every item once; answers how many bytes were told or written.
    pub fn pass(&mut self, subject: Subject, input: &Input) -> usize {
        let lengths = input.items.iter().map(|item| self.one(subject, item));
        lengths.sum()
    }

    fn one(&mut self, subject: Subject, item: &Item) -> usize {
        match subject {
            Subject::CrateValue => item.value.text().len(),
            Subject::CrateTokens => crate_text(String::new(), &item.tokens).len(),
            Subject::Measure => measure(&item.tree, &item.text).place as usize,
            Subject::Render => render(&item.tree, &item.text, &mut self.out).place as usize,
            Subject::CrateAppend => {
                let mut string = std::mem::take(&mut self.string);
                string.clear();
                self.string = crate_text(string, &item.tokens);
                self.string.len()
            }
            Subject::Append => append_all(&item.tokens, &mut self.out),
        }
    }
}

/// Every subject comes to the crate's text for every item; or which does not.
pub fn verify(input: &Input) -> Result<(), String> {
    match input.items.iter().find(|item| !agrees(item)) {
        Some(item) => Err(format!("{}: not {:?}", input.name, item.expected)),
        None => Ok(()),
    }
}

fn agrees(item: &Item) -> bool {
    let expected = item.expected.as_bytes();
    let length = expected.len();
    let mut out = vec![0; length];
    let measured = measure(&item.tree, &item.text) == done(length);
    let rendered = render(&item.tree, &item.text, &mut out) == done(length) && out == expected;
    out.fill(0);
    let appended = append_all(&item.tokens, &mut out) == length && out == expected;
    let shown = item.value.text() == item.expected;
    let streamed = crate_text(String::new(), &item.tokens) == item.expected;
    measured && rendered && appended && shown && streamed
}

fn crate_text(mut string: String, tokens: &[Given]) -> String {
    let mut stream = WriteTokenStream::new(&mut string);
    for token in tokens {
        let written = stream.append(token.kind, token.value.as_deref());
        written.expect("a String takes everything");
    }
    string
}

pub fn measure(tree: &[u8], text: &[u8]) -> Answer {
    // Both parts are valid for their lengths.
    let packed =
        unsafe { kinyandoma_measure(tree.as_ptr(), tree.len(), text.as_ptr(), text.len()) };
    Answer::unpacked(packed)
}

pub fn render(tree: &[u8], text: &[u8], out: &mut [u8]) -> Answer {
    // All parts are valid for their lengths, and out overlaps nothing.
    let packed = unsafe {
        kinyandoma_render(
            tree.as_ptr(),
            tree.len(),
            text.as_ptr(),
            text.len(),
            out.as_mut_ptr(),
            out.len(),
        )
    };
    Answer::unpacked(packed)
}

/// A fresh stream of these tokens; answers how many bytes were added.
fn append_all(tokens: &[Given], out: &mut [u8]) -> usize {
    let mut stream = Stream::FRESH.record();
    let mut added = 0;
    for token in tokens {
        let value = token.value_bytes();
        // All parts are valid for their lengths, and what is written overlaps nothing.
        let packed = unsafe {
            kinyandoma_append(
                stream.as_mut_ptr(),
                stream.len(),
                out.as_mut_ptr(),
                out.len(),
                token.flags,
                value.as_ptr(),
                value.len(),
            )
        };
        added += Answer::unpacked(packed).place as usize;
    }
    added
}
