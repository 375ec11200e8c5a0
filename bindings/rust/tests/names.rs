//! The names of tokens, kinds and flags are those of the project.

mod common;

use common::lines;
use kinyandoma::{Flag, Kind, Token};

/// Name and number of each constant in a source of the proved crates.
fn constants(path: &str) -> Vec<(String, u16)> {
    let constant = |line: &String| {
        let (name, number) = line.strip_prefix("pub const ")?.split_once(": u16 = ")?;
        let number = number.strip_suffix(';')?.parse().ok()?;
        Some((name.to_string(), number))
    };
    lines(path).iter().filter_map(constant).collect()
}

#[test]
fn tokens_are_those_of_the_spelling_table() {
    let own = Token::ALL
        .iter()
        .map(|(token, name)| (name.to_string(), token.number()));
    let own: Vec<_> = own.collect();
    assert_eq!(own, constants("crates/spelling/src/token.rt"));
    let stored = lines("crates/spellings/stdout").into_iter();
    let known = stored.filter(|line| !line.ends_with(" unknown"));
    let known = known.map(|line| line.split(' ').next().unwrap_or_default().parse());
    let known: Result<Vec<u16>, _> = known.collect();
    let own: Vec<u16> = own.iter().map(|(_, number)| *number).collect();
    assert_eq!(Ok(own), known);
}

/// `CreateTable` is `CREATE_TABLE`.
fn shouted(name: &str) -> String {
    let mut shouted = String::new();
    for letter in name.chars() {
        if letter.is_uppercase() && !shouted.is_empty() {
            shouted.push('_');
        }
        shouted.push(letter.to_ascii_uppercase());
    }
    shouted
}

#[test]
fn kinds_are_those_of_the_grammar() {
    let own = Kind::ALL
        .iter()
        .map(|kind| (shouted(&format!("{kind:?}")), kind.number()));
    let mut grammar = constants("crates/grammar/src/kind.rt");
    grammar.retain(|(_, number)| *number >= Kind::Cmd.number());
    assert_eq!(own.collect::<Vec<_>>(), grammar);
    for kind in Kind::ALL {
        assert_eq!(Kind::of(kind.number()), Some(*kind));
    }
    assert_eq!(Kind::of(0), None);
}

/// A row of the table of kinds (docs/DECISIONS.md, R2): the kinds, their flags, their slots.
struct Row {
    kinds: Vec<u16>,
    flags: String,
    slots: String,
}

fn rows() -> Vec<Row> {
    let lines = lines("docs/DECISIONS.md").into_iter();
    let table = lines.skip_while(|line| line != "| Kind | Flags | Slots |");
    let rows = table.skip(2).take_while(|line| line.starts_with('|'));
    let row = |line: String| {
        let cells: Vec<&str> = line.split('|').map(str::trim).collect();
        let number = |kind: &str| kind.split(' ').next()?.parse().ok();
        let kinds = cells[1].split(", ").map(number);
        Row {
            kinds: kinds.collect::<Option<_>>().expect("a kind's number"),
            flags: cells[2].to_string(),
            slots: cells[3].to_string(),
        }
    };
    rows.map(row).collect()
}

/// `if_exists, not_null`; for Cmd and CommonTableExpr the table has numbers.
fn told(flags: &[Flag]) -> String {
    let names = flags.iter().map(|flag| shouted(&format!("{flag:?}")));
    let names: Vec<String> = names.map(|name| name.to_lowercase()).collect();
    names.join(", ")
}

#[test]
fn flags_and_slots_are_those_of_the_table() {
    let mut seen = 0;
    for row in rows() {
        for number in &row.kinds {
            let kind = Kind::of(*number).expect("a kind");
            assert_eq!(kind.slots(), row.slots, "{kind:?}");
            if !row.flags.contains(" to ") {
                assert_eq!(told(kind.flags()), row.flags, "{kind:?}");
            }
            seen += 1;
        }
    }
    assert_eq!(seen, Kind::ALL.len());
}
