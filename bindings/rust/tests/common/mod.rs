//! The stored lists of the repository; oracle/README.md has their formats.

#![allow(dead_code)]

use kinyandoma::Options;
use std::fs;
use std::path::PathBuf;

/// A file of the repository, by its path from the root.
pub fn file(path: &str) -> Vec<u8> {
    let root = PathBuf::from(env!("CARGO_MANIFEST_DIR")).join("../..");
    fs::read(root.join(path)).unwrap_or_else(|error| panic!("{path}: {error}"))
}

/// The lines of such a file.
pub fn lines(path: &str) -> Vec<String> {
    let text = String::from_utf8(file(path)).expect("a file of text");
    text.lines().map(str::to_string).collect()
}

/// A stored tree with its text and the options of the call, and the line that is expected for it.
pub struct Stored {
    pub options: Options,
    pub tree: Vec<u8>,
    pub text: Vec<u8>,
    pub expected: String,
}

/// The trees of a replaying program.
pub fn trees(program: &str) -> Vec<Stored> {
    let input = file(&format!("crates/{program}/stdin"));
    let mut rest = Rest(&input);
    let stored = lines(&format!("crates/{program}/stdout")).into_iter();
    let stored = stored.map(|expected| {
        let options = Options::from_bits(rest.word());
        let (tree, text) = (rest.length(), rest.length());
        let (tree, text) = (rest.take(tree).to_vec(), rest.take(text).to_vec());
        Stored {
            options,
            tree,
            text,
            expected,
        }
    });
    let stored: Vec<Stored> = stored.collect();
    assert!(rest.0.is_empty(), "as many cases as lines");
    stored
}

/// A stored list of jobs: start and length of each tree, what is lent with them, and the line that is expected for it.
pub struct List {
    pub options: Options,
    pub jobs: Vec<(u64, u64)>,
    pub trees: Vec<u8>,
    pub text: Vec<u8>,
    pub room: usize,
    pub expected: String,
}

/// The lists of `replay_jobs`.
pub fn lists() -> Vec<List> {
    let input = file("crates/replay_jobs/stdin");
    let mut rest = Rest(&input);
    let stored = lines("crates/replay_jobs/stdout").into_iter();
    let stored = stored.map(|expected| {
        let options = Options::from_bits(rest.word());
        let [count, trees, text, room] = [(); 4].map(|()| rest.length());
        let jobs = (0..count).map(|_| (rest.long(), rest.long())).collect();
        List {
            options,
            jobs,
            trees: rest.take(trees).to_vec(),
            text: rest.take(text).to_vec(),
            room,
            expected,
        }
    });
    let stored: Vec<List> = stored.collect();
    assert!(rest.0.is_empty(), "as many lists as lines");
    stored
}

/// The texts of `replay_cut`, each with the lines that are expected for it.
pub fn texts() -> Vec<(Vec<u8>, String)> {
    let input = file("crates/replay_cut/stdin");
    let mut rest = Rest(&input);
    let stored = String::from_utf8(file("crates/replay_cut/stdout")).expect("a file of text");
    let mut texts = vec![];
    let mut expected = String::new();
    for line in stored.lines() {
        if !line.is_empty() {
            expected += &format!("{line}\n");
            continue;
        }
        let length = rest.length();
        texts.push((rest.take(length).to_vec(), std::mem::take(&mut expected)));
    }
    assert!(rest.0.is_empty(), "as many texts as empty lines");
    texts
}

/// A stored stream: number and value of each token, and the line that is expected for it.
pub struct Tokens {
    pub tokens: Vec<(u16, Option<Vec<u8>>)>,
    pub expected: String,
}

/// The streams of `replay`.
pub fn streams() -> Vec<Tokens> {
    let input = file("crates/replay/stdin");
    let mut rest = Rest(&input);
    let stored = lines("crates/replay/stdout").into_iter();
    let stored = stored.map(|expected| {
        let count = rest.take(1)[0];
        let tokens = (0..count).map(|_| rest.token()).collect();
        Tokens { tokens, expected }
    });
    let stored: Vec<Tokens> = stored.collect();
    assert!(rest.0.is_empty(), "as many cases as lines");
    stored
}

/// Lowercase hex, or `-` for no bytes.
pub fn hex(bytes: &[u8]) -> String {
    if bytes.is_empty() {
        return "-".to_string();
    }
    bytes.iter().map(|byte| format!("{byte:02x}")).collect()
}

/// What of a file is still to be read.
struct Rest<'a>(&'a [u8]);

impl<'a> Rest<'a> {
    fn take(&mut self, count: usize) -> &'a [u8] {
        let (taken, rest) = self.0.split_at(count);
        self.0 = rest;
        taken
    }

    fn short(&mut self) -> u16 {
        u16::from_le_bytes(self.take(2).try_into().expect("two bytes"))
    }

    fn word(&mut self) -> u32 {
        u32::from_le_bytes(self.take(4).try_into().expect("four bytes"))
    }

    fn long(&mut self) -> u64 {
        u64::from_le_bytes(self.take(8).try_into().expect("eight bytes"))
    }

    fn length(&mut self) -> usize {
        self.word() as usize
    }

    /// Flags, with bit 15 for a value; its length; the value.
    fn token(&mut self) -> (u16, Option<Vec<u8>>) {
        const VALUE_PRESENT: u16 = 1 << 15;
        let (flags, length) = (self.short(), self.short());
        let value = self.take(usize::from(length)).to_vec();
        let present = flags & VALUE_PRESENT != 0;
        (flags & !VALUE_PRESENT, present.then_some(value))
    }
}
