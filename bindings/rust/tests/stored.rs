//! The lists that the oracle stored: what the crate writes, and what is refused.

mod common;

use common::{hex, streams, trees, Stored, Tokens};
use kinyandoma::{
    measure, measure_with, render_to_string_with, render_to_vec, render_to_vec_with, render_with,
    Options, Refusal, Stream,
};
use std::str::from_utf8;

/// What stands in an output before.
const BEFORE: u8 = 0xEE;
/// How the line of a stream with a value that is no text begins.
const REFUSED: &str = "refused ";

/// `NUMBER PLACE`; a reader is told both, and more.
fn refused(refusal: Refusal) -> String {
    let (number, place) = (refusal.number, refusal.place);
    let told = format!("refused with {number}, place {place}: ");
    assert!(refusal.to_string().starts_with(&told), "{refusal}");
    format!("{number} {place}")
}

/// The line that the calls make of a tree: `0 LENGTH HEXTEXT` or `NUMBER PLACE`.
fn line(stored: &Stored) -> String {
    match render_to_vec_with(stored.options, &stored.tree, &stored.text) {
        Ok(bytes) => format!("0 {} {}", bytes.len(), hex(&bytes)),
        Err(refusal) => refused(refusal),
    }
}

#[test]
fn trees_are_written_as_stored() {
    let stored = trees("replay_text");
    let written = stored.iter().filter(|tree| line(tree).starts_with("0 "));
    assert_eq!((stored.len(), written.count()), (1049, 903));
    for tree in &stored {
        assert_eq!(line(tree), tree.expected, "tree {}", hex(&tree.tree));
    }
}

#[test]
fn render_keeps_to_its_room() {
    for tree in trees("replay_text") {
        let Ok(length) = measure_with(tree.options, &tree.tree, &tree.text) else {
            continue;
        };
        let mut out = vec![BEFORE; length + 3];
        let written = render_with(tree.options, &tree.tree, &tree.text, &mut out);
        assert_eq!(written, Ok(length));
        assert_eq!(format!("0 {length} {}", hex(&out[..length])), tree.expected);
        assert_eq!(out[length..], [BEFORE; 3]);
        if length > 0 {
            let mut out = vec![BEFORE; length - 1];
            let refusal = render_with(tree.options, &tree.tree, &tree.text, &mut out);
            let refusal = refusal.unwrap_err();
            assert_eq!((refusal.number, refusal.place), (8, length));
            assert!(out.iter().all(|&byte| byte == BEFORE));
        }
    }
}

#[test]
fn trees_are_refused_as_stored() {
    let stored = trees("replay_trees");
    assert_eq!(stored.len(), 1293);
    for tree in &stored {
        let measured = measure_with(tree.options, &tree.tree, &tree.text);
        let written = render_to_vec_with(tree.options, &tree.tree, &tree.text);
        assert_eq!(measured, written.map(|text| text.len()));
        if asks_for_nothing(tree.options) {
            assert_eq!(measured, measure(&tree.tree, &tree.text));
        }
        let answer = match measured {
            Ok(_) => "0 0".to_string(),
            Err(refusal) => refused(refusal),
        };
        assert_eq!(answer, tree.expected, "tree {}", hex(&tree.tree));
    }
}

fn asks_for_nothing(options: Options) -> bool {
    !options.is_strict() && !options.is_sqlite()
}

#[test]
fn the_calls_without_options_write_the_crates_edition() {
    for tree in trees("replay_text") {
        if asks_for_nothing(tree.options) {
            let written = render_to_vec(&tree.tree, &tree.text);
            let with = render_to_vec_with(tree.options, &tree.tree, &tree.text);
            assert_eq!(written, with);
        }
    }
}

#[test]
fn every_text_is_a_string() {
    for tree in trees("replay_text") {
        if let Ok(text) = render_to_string_with(tree.options, &tree.tree, &tree.text) {
            let expected = format!("0 {} {}", text.len(), hex(text.as_bytes()));
            assert_eq!(expected, tree.expected);
        }
    }
}

#[test]
fn streams_are_written_as_stored() {
    let stored = streams();
    assert!(stored.len() > 1000, "{} streams", stored.len());
    for case in stored.iter().filter(|case| !is_refused(case)) {
        let (mut stream, mut grown) = (Stream::new(), Vec::new());
        let (mut same, mut lent) = (Stream::new(), vec![BEFORE; case.expected.len()]);
        for (token, value) in &case.tokens {
            let value = value.as_deref().map(|bytes| from_utf8(bytes).unwrap());
            let added = stream.append_to_vec(*token, value, &mut grown);
            let again = same.append(*token, value, &mut lent);
            assert_eq!(added, again);
            assert!(added.is_ok(), "{added:?}");
        }
        assert_eq!(stream, same);
        assert_eq!(stream.written(), grown.len());
        assert_eq!(grown, lent[..grown.len()]);
        assert_eq!(
            stream_line(&stream, &grown),
            case.expected,
            "{:?}",
            case.tokens
        );
    }
}

/// Whether the list has a refusal for the stream.
fn is_refused(case: &Tokens) -> bool {
    case.expected.starts_with(REFUSED)
}

/// The line of a stream that has written these bytes: `HEXTEXT BIT LINE COLUMN`.
fn stream_line(stream: &Stream, text: &[u8]) -> String {
    let bit = u8::from(stream.spaced());
    let (line, column) = (stream.line(), stream.column());
    format!("{} {bit} {line} {column}", hex(text))
}

/// A stream of this crate takes strings, so that none of these values can be given to it.
#[test]
fn refused_streams_have_a_value_that_is_no_string() {
    let stored = streams();
    let refused = stored.iter().filter(|case| is_refused(case));
    let broken = |value: &Option<Vec<u8>>| value.as_ref().is_some_and(|v| from_utf8(v).is_err());
    assert_eq!(refused.clone().count(), 30);
    for case in refused {
        assert!(case.tokens.iter().any(|(_, value)| broken(value)));
    }
}

#[test]
fn calls_from_several_threads_do_not_meet() {
    const THREADS: usize = 4;
    let stored = trees("replay_text");
    let replay = || {
        for tree in &stored {
            assert_eq!(line(tree), tree.expected, "tree {}", hex(&tree.tree));
        }
    };
    std::thread::scope(|scope| {
        for _ in 0..THREADS {
            scope.spawn(replay);
        }
    });
}
