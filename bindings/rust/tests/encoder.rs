//! The encoder: what it builds is what was stored, and what cannot be said is an error.

mod common;

use common::{hex, trees};
use kinyandoma::{
    id, list, measure, measure_with, render_to_string, render_to_vec_with, text, EncodeError, Flag,
    Kind, Node, Part, Run, EXPLAIN, MOST_BYTES, MOST_RECORDS, NOT_MATERIALIZED,
};

fn written(part: impl Into<Part>) -> String {
    let (tree, text) = part.into().finish().expect("a tree that can be said");
    render_to_string(&tree, &text).unwrap_or_else(|refusal| panic!("{refusal}"))
}

/// A stored tree, read back record by record.
struct Reader<'a> {
    tree: &'a [u8],
    text: &'a str,
}

/// The bytes of a record, and the bit of a TOKEN's flags that tells of a value.
const SIZE: usize = 16;
const VALUE_PRESENT: u16 = 1 << 15;

impl<'a> Reader<'a> {
    /// The next record's bytes.
    fn record(&mut self) -> &'a [u8] {
        let (record, rest) = self.tree.split_at(SIZE);
        self.tree = rest;
        record
    }

    /// The text part of a record.
    fn value(&self, record: &[u8]) -> String {
        let (start, length) = (long(record, 8), long(record, 12));
        self.text[start..start + length].to_string()
    }

    /// The next record with all below it, built by the encoder's own calls.
    fn part(&mut self) -> Part {
        let record = self.record();
        let (kind, flags, children) = (short(record, 2), short(record, 4), short(record, 6));
        match kind {
            0 => Part::None,
            1 => list((0..children).map(|_| self.part())),
            3 => (0..children)
                .fold(Run::new(), |run, _| self.token(run))
                .into(),
            4 => text(self.value(record)),
            5 => i64::from_le_bytes(record[8..].try_into().unwrap()).into(),
            _ => {
                let node = Node::new(Kind::of(kind).expect("a kind")).flags(flags);
                let all = (0..children).fold(node, |node: Node, _| node.child(self.part()));
                all.into()
            }
        }
    }

    fn token(&mut self, run: Run) -> Run {
        let record = self.record();
        let flags = short(record, 4);
        match flags & VALUE_PRESENT {
            0 => run.token(flags),
            _ => run.value(flags & !VALUE_PRESENT, self.value(record)),
        }
    }
}

fn short(record: &[u8], at: usize) -> u16 {
    u16::from_le_bytes(record[at..at + 2].try_into().unwrap())
}

fn long(record: &[u8], at: usize) -> usize {
    u32::from_le_bytes(record[at..at + 4].try_into().unwrap()) as usize
}

#[test]
fn stored_trees_built_again_write_the_same() {
    let mut built = 0;
    for stored in trees("replay_text") {
        if measure_with(stored.options, &stored.tree, &stored.text).is_err() {
            continue;
        }
        let text = std::str::from_utf8(&stored.text).unwrap();
        let tree = &stored.tree[..];
        let part = Reader { tree, text }.part();
        let (tree, text) = part.finish().expect("a tree that was stored");
        assert_eq!(tree.len(), stored.tree.len());
        let bytes = render_to_vec_with(stored.options, &tree, &text).unwrap();
        let line = format!("0 {} {}", bytes.len(), hex(&bytes));
        assert_eq!(line, stored.expected);
        built += 1;
    }
    assert_eq!(built, 903);
}

#[test]
fn flags_by_name_write_their_words() {
    let sequence = Node::new(Kind::CreateSequence)
        .flag(Flag::Cycle)
        .id("s")
        .none();
    let trigger = Node::new(Kind::CreateTrigger).flag(Flag::ForEachRow);
    let trigger = trigger.id("t").none().child(Run::new()).id("u").none();
    let index = Node::new(Kind::CreateIndex).flag(Flag::Unique).id("i");
    let index = index.id("t").none().list([id("a")]).empty_list().none();
    let domain = Node::new(Kind::CreateDomain).flag(Flag::NotNull);
    let domain = domain.text("d").text("INT").none().empty_list();
    let columns = || Node::new(Kind::ColumnsAndConstraints).empty_list();
    let table = Node::new(Kind::CreateTable).flag(Flag::Temporary);
    let table = table.flag(Flag::IfNotExists).id("t");
    let key = Node::new(Kind::PrimaryKey).flag(Flag::AutoIncrement);
    let cases = [
        (sequence.none().none().none(), "CREATE SEQUENCE s CYCLE"),
        (
            trigger.list([id("x")]),
            "CREATE TRIGGER t ON u FOR EACH ROW BEGIN\nx;\nEND",
        ),
        (index, "CREATE UNIQUE INDEX i ON t (a)"),
        (domain, "CREATE DOMAIN d AS INT NOT NULL"),
        (
            table.child(columns().empty_list().none().none()),
            "CREATE TEMP TABLE IF NOT EXISTS t ()",
        ),
        (key.list([id("a")]).none(), "PRIMARY KEY (a AUTOINCREMENT)"),
        (
            Node::new(Kind::DropTable).flag(Flag::IfExists).id("t"),
            "DROP TABLE IF EXISTS t",
        ),
    ];
    for (node, expected) in cases {
        assert_eq!(written(node), expected);
    }
}

#[test]
fn flags_by_number() {
    let begin = Node::new(Kind::Begin).none().none();
    let explained = Node::new(Kind::Cmd).flags(EXPLAIN).child(begin);
    assert_eq!(written(explained), "EXPLAIN BEGIN;");
    let table = Node::new(Kind::CommonTableExpr).flags(NOT_MATERIALIZED);
    let table = table.id("t").empty_list().child(id("x"));
    assert_eq!(written(table), "t AS NOT MATERIALIZED (x)");
}

#[test]
fn optional_parts() {
    let attach = |key: Option<Run>| Node::new(Kind::Attach).id("a").id("b").child(key);
    assert_eq!(written(attach(None)), "ATTACH a AS b");
    assert_eq!(written(attach(Some(id("k")))), "ATTACH a AS b KEY k");
}

#[test]
fn equal_texts_are_stored_once() {
    let names = list([id("meter"), id("kwh"), id("meter")]);
    let (tree, text) = names.finish().unwrap();
    assert_eq!(text, b"meterkwh");
    let written = render_to_string(&tree, &text);
    assert_eq!(written.as_deref(), Ok("meter, kwh, meter"));
}

#[test]
fn limits_are_errors() {
    let tokens = |count| (0..count).fold(Run::new(), |run, _| run.token(60));
    let (tree, _) = tokens(MOST_RECORDS - 1).finish().unwrap();
    assert_eq!(tree.len(), MOST_BYTES);
    assert_eq!(
        tokens(MOST_RECORDS).finish(),
        Err(EncodeError::TooManyRecords)
    );
    assert_eq!(tokens(70_000).finish(), Err(EncodeError::TooManyRecords));
    let of_length = |length| id("x".repeat(length)).finish();
    assert_eq!(of_length(MOST_BYTES).unwrap().1.len(), MOST_BYTES);
    assert_eq!(of_length(MOST_BYTES + 1), Err(EncodeError::TextTooLong));
    let two = list([id("x".repeat(MOST_BYTES)), id("y")]);
    assert_eq!(two.finish(), Err(EncodeError::TextTooLong));
}

#[test]
fn what_a_record_cannot_say_is_an_error() {
    let table = Node::new(Kind::DropTable).flag(Flag::Unique).id("t");
    let error = table.finish().unwrap_err();
    assert_eq!(
        error,
        EncodeError::NoSuchFlag(Kind::DropTable, Flag::Unique)
    );
    assert_eq!(
        error.to_string(),
        "DropTable has no flag Unique; its flags are [IfExists]"
    );
    assert_eq!(
        Run::new().token(1 << 15).finish(),
        Err(EncodeError::TokenNumber(1 << 15))
    );
}

#[test]
fn a_part_in_a_wrong_slot_is_refused_at_its_record() {
    let (tree, text) = Node::new(Kind::DropTable).text("t").finish().unwrap();
    let refusal = measure(&tree, &text).unwrap_err();
    assert_eq!((refusal.number, refusal.place), (4, 1));
    assert!(refusal.to_string().starts_with("refused with 4, place 1: "));
}
