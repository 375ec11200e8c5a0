//! Examples made by hand: the document's cases, and each refusal at its smallest.

use model::check::{check, check_with};
use model::damage::Case;
use model::fixed::{drop_type, of};
use model::grammar::{CHECK, LIST, NONE, NUMBER, RUN, TABLE_BODY, TEXT, TOKEN};
use model::grow;
use model::options::{MEANT, SQLITE, STRICT};
use model::record::{Record, SIZE, VALUE_PRESENT};
use model::rowid::says_without_rowid;
use model::source::ends_inside;
use tokens::random::Random;

fn answer(case: &Case) -> (u32, u32) {
    check(&case.tree, &case.text)
}

fn of_records(records: &[Record]) -> (u32, u32) {
    answer(&of(records, &[]))
}

/// FROM (((..))): each FromClause and each Sub is one level.
fn subs(depth: usize) -> Case {
    let mut records = Vec::new();
    for level in 1..depth {
        let kind = if level % 2 == 1 { 85 } else { 90 };
        records.push(Record::new(kind, 2));
    }
    records.push(Record::new(RUN, 0));
    for level in (1..depth).rev() {
        let after = if level % 2 == 1 { LIST } else { NONE };
        records.push(Record::new(after, 0));
    }
    of(&records, &[])
}

#[test]
fn the_example_is_the_documents() {
    let tree = [
        0x53, 0x4E, 0x0A, 0, 0, 0, 1, 0, 0, 0, 0, 0, 0, 0, 0, 0, //
        0x53, 0x4E, 0x3D, 0, 1, 0, 1, 0, 0, 0, 0, 0, 0, 0, 0, 0, //
        0x53, 0x4E, 0x04, 0, 0, 0, 0, 0, 0, 0, 0, 0, 3, 0, 0, 0,
    ];
    assert_eq!(drop_type(b"geo").tree, tree);
    assert_eq!(check(&tree, b"geo"), (0, 0));
}

#[test]
fn a_wrong_mark_with_bad_text_is_2() {
    let mut case = drop_type(b"ge\xFF");
    case.tree[0] = 0;
    assert_eq!(answer(&case), (2, 2));
}

#[test]
fn depth_64_passes_and_65_is_6() {
    assert_eq!(answer(&subs(63)), (0, 0));
    assert_eq!(answer(&subs(64)), (0, 0));
    assert_eq!(answer(&subs(65)), (6, 64));
    assert_eq!(answer(&subs(66)), (6, 64));
}

#[test]
fn at_65_the_other_refusals_come_first() {
    let mut marked = subs(65);
    marked.edit(64, |record| record.mark = [0, 0]);
    assert_eq!(answer(&marked), (3, 64));
    let mut flagged = subs(65);
    flagged.edit(64, |record| record.flags = 1);
    assert_eq!(answer(&flagged), (4, 64));
    let mut cut = subs(65);
    cut.tree.truncate(64 * SIZE);
    assert_eq!(answer(&cut), (7, 64));
}

#[test]
fn a_chain_is_as_deep_as_asked() {
    let mut random = Random::new(3);
    for depth in 1..=70 {
        let case = Case::from(grow::chain(&mut random, depth));
        let expected = if depth > 64 { 6 } else { 0 };
        assert_eq!(answer(&case).0, expected, "depth {depth}");
    }
}

#[test]
fn refusal_1() {
    let run = Record::new(RUN, 0).bytes();
    assert_eq!(check(&[], &[]), (1, 0));
    assert_eq!(check(&run[..15], &[]), (1, 0));
    assert_eq!(check(&[&run[..], &[0]].concat(), &[0xFF]), (1, 0));
    let list = |count: u16| {
        let mut tree = Record::new(LIST, count).bytes().to_vec();
        (0..count).for_each(|_| tree.extend(run));
        tree
    };
    assert_eq!(list(4095).len(), 65_536);
    assert_eq!(check(&list(4095), &[]), (0, 0));
    assert_eq!(check(&list(4096), &[]), (1, 0));
}

#[test]
fn refusal_2() {
    let run = Record::new(RUN, 0).bytes();
    assert_eq!(check(&run, &[0xFF]), (2, 0));
    assert_eq!(check(&run, b"a\xC3\xA9\xE2\x82a"), (2, 3));
    assert_eq!(check(&run, b"a\xC3\xA9\xF0\x80"), (2, 3));
    assert_eq!(check(&run, &vec![b'x'; 65_536]), (0, 0));
    assert_eq!(check(&run, &vec![b'x'; 65_537]), (2, 65_536));
    assert_eq!(check(&run, &vec![0xFF; 65_537]), (2, 65_536));
}

#[test]
fn refusal_12() {
    let run = Record::new(RUN, 0).bytes();
    assert_eq!(check(&run, b"a\xC3\xA9\xE2\x82"), (12, 3));
    assert_eq!(check(&run[1..], b"\xC3"), (1, 0));
    let mut case = drop_type(b"ge\xC3");
    case.tree[0] = 0;
    assert_eq!(answer(&case), (12, 2));
    let mut longest = vec![b'x'; 65_536];
    longest[65_535] = 0xC3;
    assert_eq!(check(&run, &longest), (12, 65_535));
    longest.insert(0, b'x');
    assert_eq!(check(&run, &longest), (2, 65_536));
}

#[test]
fn refusal_3() {
    let mut case = drop_type(b"geo");
    case.edit(1, |record| record.mark = [0x4E, 0x53]);
    assert_eq!(answer(&case), (3, 1));
}

#[test]
fn refusal_4_for_the_kind() {
    for kind in [0, 2, 4, 5, 6, 9, 11, 31, 65, 79, 119, 121, 256 + RUN] {
        assert_eq!(of_records(&[Record::new(kind, 0)]), (4, 0), "root {kind}");
    }
    for kind in [0, 1, 2, 4, 5, 10, 119] {
        let slots = u16::from(kind == 10);
        let records = [Record::new(LIST, 1), Record::new(kind, slots)];
        assert_eq!(of_records(&records), (4, 1), "in a root LIST {kind}");
    }
    let run_in_cmd = [Record::new(10, 1), Record::new(RUN, 0)];
    assert_eq!(of_records(&run_in_cmd), (0, 0));
    assert_eq!(
        of_records(&[Record::new(44, 1), Record::new(NONE, 0)]),
        (4, 1)
    );
    assert_eq!(
        of_records(&[Record::new(33, 1), Record::new(NONE, 0)]),
        (0, 0)
    );
    assert_eq!(of_records(&[Record::new(109, 0)]), (0, 0));
}

#[test]
fn refusal_4_for_counts_and_flags() {
    assert_eq!(of_records(&[Record::new(109, 1)]), (4, 0));
    assert_eq!(of_records(&[Record::new(44, 0)]), (4, 0));
    assert_eq!(of_records(&[Record::new(44, 2)]), (4, 0));
    assert_eq!(of_records(&[Record::flagged(44, 1, 1)]), (4, 0));
    assert_eq!(of_records(&[Record::flagged(61, 2, 1)]), (4, 0));
    assert_eq!(of_records(&[Record::flagged(39, 7, 6)]), (7, 1));
    assert_eq!(of_records(&[Record::flagged(39, 8, 6)]), (4, 0));
    assert_eq!(of_records(&[Record::flagged(106, 2, 3)]), (7, 1));
    assert_eq!(of_records(&[Record::flagged(106, 3, 3)]), (4, 0));
    assert_eq!(of_records(&[Record::flagged(10, 4, 1)]), (4, 0));
    assert_eq!(of_records(&[Record::flagged(RUN, 1, 0)]), (4, 0));
}

#[test]
fn refusal_4_for_tokens() {
    let token = |record: Record| answer(&of(&[Record::new(RUN, 1), record], b"x"));
    for number in [0, 168, 185, 193, 255] {
        assert_eq!(token(Record::flagged(TOKEN, number, 0)), (0, 0));
        let valued = Record::part(TOKEN, number | VALUE_PRESENT, 0, 1);
        assert_eq!(token(valued), (0, 0));
    }
    for number in [169, 184, 194, 254, 256, 32767] {
        assert_eq!(token(Record::flagged(TOKEN, number, 0)), (4, 1));
    }
    assert_eq!(token(Record::part(TOKEN, 60, 0, 1)), (4, 1));
    assert_eq!(token(Record::part(TOKEN, 60, 1, 0)), (4, 1));
}

#[test]
fn refusal_4_for_numbers() {
    let dimensions = |number| {
        let name = Record::new(TEXT, 0);
        let none = Record::new(NONE, 0);
        of_records(&[
            Record::new(107, 3),
            name,
            none,
            Record::number(NUMBER, number),
        ])
    };
    assert_eq!(dimensions(0), (0, 0));
    assert_eq!(dimensions(255), (0, 0));
    for number in [-1, 256, 1 << 32, i64::MIN, i64::MAX] {
        assert_eq!(dimensions(number), (4, 3));
    }
    let mut sequence = vec![Record::new(62, 5), Record::new(RUN, 0)];
    sequence.extend([Record::number(NUMBER, i64::MIN); 4]);
    assert_eq!(of_records(&sequence), (0, 0));
}

#[test]
fn refusal_5() {
    let part = |start, length| {
        let mut case = drop_type("a\u{20AC}".as_bytes());
        case.edit(2, |record| (record.start, record.length) = (start, length));
        answer(&case)
    };
    for (start, length) in [(0, 0), (0, 1), (1, 3), (1, 0), (4, 0), (0, 4)] {
        assert_eq!(part(start, length), (0, 0));
    }
    for (start, length) in [(2, 0), (3, 1), (0, 2), (0, 5), (5, 0), (u32::MAX, 1)] {
        assert_eq!(part(start, length), (5, 2));
    }
}

#[test]
fn refusal_7() {
    assert_eq!(of_records(&[Record::new(RUN, 1)]), (7, 1));
    assert_eq!(of_records(&[Record::new(LIST, 65535)]), (7, 1));
    let over = [Record::new(RUN, 0), Record::new(RUN, 0)];
    assert_eq!(of_records(&over), (7, 1));
    let mut broken = drop_type(b"geo");
    broken.tree.extend([0xFF; 2 * SIZE]);
    assert_eq!(answer(&broken), (7, 3));
}

/// Two CHECKs in a LIST, with these sources.
fn two_checks(sources: [&str; 2]) -> Case {
    let mut records = vec![Record::new(LIST, 2)];
    let mut start = 0;
    for source in sources {
        let length = source.len() as u32;
        records.extend([Record::new(CHECK, 2), Record::new(RUN, 0)]);
        records.push(Record::part(TEXT, 0, start, length));
        start += length;
    }
    of(&records, sources.concat().as_bytes())
}

#[test]
fn refusal_9() {
    for (sources, expected) in [
        (["a", "'"], (9, 6)),
        (["/*", "'"], (9, 3)),
        (["'a", "b'"], (9, 3)),
        (["", "--'"], (0, 0)),
    ] {
        let case = two_checks(sources);
        assert_eq!(answer(&case), (0, 0));
        assert_eq!(case.clone().with(!STRICT).refusal(), (0, 0));
        assert_eq!(case.clone().with(STRICT).refusal(), expected);
        assert_eq!(case.with(u32::MAX).refusal(), expected);
    }
    let drop_open = drop_type(b"'");
    assert_eq!(check_with(STRICT, &drop_open.tree, b"'"), (0, 0));
}

#[test]
fn where_9_stands_in_the_order() {
    let open = two_checks(["'", "a"]).with(STRICT);
    let with = |index, change: fn(&mut Record)| {
        let mut case = open.clone();
        case.edit(index, change);
        case.refusal()
    };
    assert_eq!(with(3, |record| record.mark = [0, 0]), (3, 3));
    assert_eq!(with(3, |record| record.flags = 1), (4, 3));
    assert_eq!(with(3, |record| record.length = 3), (5, 3));
    assert_eq!(with(2, |record| record.flags = 1), (4, 2));
    assert_eq!(with(4, |record| record.mark = [0, 0]), (9, 3));
    assert_eq!(with(6, |record| record.length = 3), (9, 3));
    let mut cut = open.clone();
    cut.tree.truncate(4 * SIZE);
    assert_eq!(cut.refusal(), (9, 3));
    cut.tree.truncate(3 * SIZE);
    assert_eq!(cut.refusal(), (7, 3));
}

/// A table's body with this without-rowid text, which is record 3, and this CHECK source behind it, record 7, in a LIST.
fn body_and_check(rowid: &str, source: &str) -> Case {
    let length = |text: &str| text.len() as u32;
    let records = [
        Record::new(LIST, 2),
        Record::new(TABLE_BODY, 4),
        Record::new(LIST, 0),
        Record::new(LIST, 0),
        Record::part(TEXT, 0, 0, length(rowid)),
        Record::new(NONE, 0),
        Record::new(CHECK, 2),
        Record::new(RUN, 0),
        Record::part(TEXT, 0, length(rowid), length(source)),
    ];
    of(&records, format!("{rowid}{source}").as_bytes())
}

#[test]
fn refusal_10() {
    for (text, expected) in [
        ("WITHOUT ROWID", (0, 0)),
        ("without  rowid", (0, 0)),
        ("", (10, 4)),
        ("a b", (10, 4)),
        ("WITHOUT", (10, 4)),
        ("WITHOUT ROWID x", (10, 4)),
    ] {
        let case = body_and_check(text, "x");
        assert_eq!(case.refusal(), (0, 0));
        assert_eq!(case.clone().with(!SQLITE).refusal(), (0, 0));
        assert_eq!(case.clone().with(SQLITE).refusal(), expected);
        assert_eq!(case.with(u32::MAX).refusal(), expected);
    }
    let mut empty = body_and_check("", "x").with(SQLITE);
    empty.edit(4, |record| (record.start, record.length) = (0, 0));
    assert_eq!(empty.refusal(), (10, 4));
    empty.edit(4, |record| record.kind = NONE);
    assert_eq!(empty.refusal(), (0, 0));
}

#[test]
fn where_10_stands_in_the_order() {
    let other = body_and_check("a b", "'").with(MEANT);
    let with = |index: usize, change: fn(&mut Record)| {
        let mut case = other.clone();
        case.edit(index, change);
        case.refusal()
    };
    assert_eq!(with(0, |_| ()), (10, 4));
    assert_eq!(with(4, |record| record.mark = [0, 0]), (3, 4));
    assert_eq!(with(4, |record| record.flags = 1), (4, 4));
    assert_eq!(with(4, |record| record.length = 9), (5, 4));
    assert_eq!(with(3, |record| record.flags = 1), (4, 3));
    assert_eq!(with(5, |record| record.mark = [0, 0]), (10, 4));
    assert_eq!(with(8, |record| record.length = 9), (10, 4));
    assert_eq!(other.clone().with(STRICT).refusal(), (9, 8));
    assert_eq!(
        body_and_check("WITHOUT ROWID", "'").with(MEANT).refusal(),
        (9, 8)
    );
}

#[test]
fn texts_that_say_without_rowid_or_not() {
    for text in [
        "WITHOUT ROWID",
        "wItHoUt\u{3000}RoWiD",
        "\u{85}without\u{B}rowid ",
    ] {
        assert!(says_without_rowid(text), "{text:?}");
    }
    for text in [
        "",
        "ROWID WITHOUT",
        "w\u{131}thout rowid",
        "WITHOUT\u{200B}ROWID",
        "WITHOUT ROWID,",
    ] {
        assert!(!says_without_rowid(text), "{text:?}");
    }
}

#[test]
fn sources_end_inside_something_or_not() {
    for source in [
        "", "/**/", "/*'*/", "'/*'", "'--'", "''''", "--'", "--/*", "*/",
    ] {
        assert!(!ends_inside(source), "{source}");
    }
    for source in [
        "/*", "/*/", "'", "\"'", "`a", "'''", "--\n'", "/*--\n", "'--\n",
    ] {
        assert!(ends_inside(source), "{source}");
    }
}

#[test]
fn a_run_stands_for_any_kind() {
    let run = Record::new(RUN, 0);
    assert_eq!(of_records(&[Record::new(56, 1), run]), (0, 0));
    let none = Record::new(NONE, 0);
    let list = Record::new(LIST, 0);
    let insert = [Record::new(49, 6), run, run, run, list, run, list];
    assert_eq!(of_records(&insert), (0, 0));
    let replace = [
        Record::new(49, 6),
        none,
        Record::new(119, 0),
        run,
        list,
        run,
        list,
    ];
    assert_eq!(of_records(&replace), (0, 0));
    assert_eq!(of_records(&[Record::new(61, 1), run]), (4, 1));
}
