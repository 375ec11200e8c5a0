//! CHECK sources that are left open, or not, with options (request vii).

use super::{edited, faults_at, faults_of_the_whole, of};
use crate::damage::Case;
use crate::grammar::{CHECK, LIST, NONE, NUMBER, RUN, TEXT, TOKEN};
use crate::options::{MEANT, STRICT};
use crate::record::{Record, VALUE_PRESENT};

/// Sources that end inside nothing, or inside a line comment.
const WHOLE: [&str; 34] = [
    "",
    "a > 0",
    "/",
    "*",
    "-",
    "*/",
    "/ *",
    "/**/",
    "/***/",
    "/*/*/",
    "/*'*/",
    "/*--*/",
    "/*\n*/a",
    "/**/*/",
    "--",
    "--a",
    "--'",
    "--/*",
    "--\r'",
    "---\n",
    "--'\n",
    "a--b\n--\"",
    "''",
    "''''",
    "'it''s'",
    "\"/*\"",
    "`--`",
    "'\"`'",
    "'\n'",
    "'\\'",
    "X'00'",
    "/*'*/\"/*\"--`",
    "\u{2019}",
    "[",
];

/// Sources that end inside a block comment or a quote.
const OPEN: [&str; 36] = [
    "/*",
    "/*/",
    "/**",
    "/* *",
    "/* * /",
    "/***",
    "a/*b",
    "//*",
    "-/*",
    "/*/*",
    "/**//*",
    "/**/'",
    "/*'",
    "/*'*",
    "/*--",
    "/*--\n",
    "--\n/*",
    "--\n'",
    "--\r\n'",
    "'",
    "\"",
    "`",
    "'''",
    "'a''",
    "'\"",
    "\"'\"`",
    "'--",
    "'--\n",
    "'/*",
    "'/*'*/'",
    "'\\''",
    "X'00",
    "\u{E9}'\u{20AC}",
    "''/*",
    "- -'",
    "['",
];

/// Bits that mean nothing: none, one, all.
const OTHERS: [u32; 5] = [0, 1 << 2, 1 << 8, 1 << 31, !MEANT];

pub fn cases() -> Vec<Case> {
    let mut cases = Vec::new();
    let sources = WHOLE.iter().chain(&OPEN);
    cases.extend(sources.map(|source| check(source).with(STRICT)));
    cases.extend(switches());
    cases.extend(parts());
    cases.extend(places());
    cases.extend(faults_at_the_source());
    cases.extend(faults_elsewhere());
    cases.extend(other_texts());
    cases.extend(long());
    cases
}

/// A Check with an empty RUN and this source, which is all of the text.
fn check(source: &str) -> Case {
    let records = [
        Record::new(CHECK, 2),
        Record::new(RUN, 0),
        Record::part(TEXT, 0, 0, source.len() as u32),
    ];
    of(&records, source.as_bytes())
}

/// The same open source with the switch on and off, each alone and with other bits; a whole one with all bits.
fn switches() -> Vec<Case> {
    let options = OTHERS
        .into_iter()
        .flat_map(|others| [others, STRICT | others]);
    let open = options.map(|options| check("'a").with(options));
    open.chain([check("'a'").with(u32::MAX)]).collect()
}

/// The source is the part alone: what stands before it and behind it in the text neither opens nor ends anything.
fn parts() -> Vec<Case> {
    let part = |text: &str, start: usize, length: usize| {
        let named = |record: &mut Record| {
            (record.start, record.length) = (start as u32, length as u32);
        };
        edited(&check(text), 2, named).with(STRICT)
    };
    vec![
        part("/*a*/", 0, 3),
        part("/*a*/", 0, 4),
        part("/*a*/", 2, 3),
        part("/*a*/", 1, 4),
        part("'a'", 1, 1),
        part("'a'", 1, 2),
        part("'a'", 0, 2),
        part("--'", 1, 2),
        part("--'", 2, 1),
        part("'", 1, 0),
        part("'", 0, 0),
    ]
}

/// CREATE TABLE t with these sources of CHECKs, NONE where there is none. They are records 10, 15, 20 and so on.
fn table(sources: &[Option<&str>]) -> Case {
    let mut text = b"t".to_vec();
    let list = |count: usize| Record::new(LIST, count as u16);
    let mut records = vec![
        Record::new(38, 2),
        Record::new(RUN, 1),
        Record::part(TOKEN, 60 | VALUE_PRESENT, 0, 1),
        Record::new(98, 4),
        list(0),
        list(sources.len()),
    ];
    for source in sources {
        records.extend([Record::new(120, 2), Record::new(NONE, 0)]);
        records.extend([Record::new(CHECK, 2), Record::new(RUN, 0)]);
        records.push(match source {
            None => Record::new(NONE, 0),
            Some(source) => Record::part(TEXT, 0, text.len() as u32, source.len() as u32),
        });
        text.extend(source.unwrap_or_default().bytes());
    }
    records.extend([Record::new(NONE, 0); 2]);
    of(&records, &text)
}

/// The first open source is the place.
fn places() -> Vec<Case> {
    let open = Some("/*");
    let whole = Some("a");
    let tables = [
        table(&[whole, open]),
        table(&[open, open]),
        table(&[None, open]),
        table(&[Some(""), open, whole]),
        table(&[Some("--"), Some("'"), Some("'")]),
        table(&[whole, whole]),
        table(&[None, None]),
        table(&[Some("'a"), Some("b'")]),
    ];
    let on = tables.clone().into_iter().map(|case| case.with(STRICT));
    on.chain(tables.into_iter().take(2)).collect()
}

/// An open source whose record has a fault of its own, which comes first.
fn faults_at_the_source() -> Vec<Case> {
    // Two bytes for the last character, so that an end can stand inside it.
    let open = check("'\u{E9}").with(STRICT);
    faults_at(&open, 2)
}

/// An open source, and a fault before it, behind it, or of the whole.
fn faults_elsewhere() -> Vec<Case> {
    let open = table(&[Some("'a"), Some("b")]).with(STRICT);
    let (first, second) = (10, 15);
    let no_mark = |record: &mut Record| record.mark = [0, 0];
    let flagged = |record: &mut Record| record.flags = 1 << 9;
    let outside = |record: &mut Record| record.length = 1 << 20;
    let mut cases = vec![
        edited(&open, first - 1, no_mark),
        edited(&open, first - 1, flagged),
        edited(&open, first - 2, flagged),
        edited(&open, 2, outside),
        edited(&open, first + 1, no_mark),
        edited(&open, first + 1, flagged),
        edited(&open, second, outside),
        edited(&open, second, |record| record.start = 1 << 20),
    ];
    cases.extend(faults_of_the_whole(
        &open,
        &[first, first + 1, second, second + 2],
    ));
    cases.extend(with_depth());
    cases
}

/// A LIST of an open CHECK and of a chain that is too deep, in either order; the same with a chain that is not.
fn with_depth() -> Vec<Case> {
    let open = check("`").with(STRICT);
    let mut cases = Vec::new();
    for depth in [64, 65] {
        let chain = subs(depth - 1);
        let list = Record::new(LIST, 2).bytes().to_vec();
        for parts in [
            [&list, &open.tree, &chain.tree],
            [&list, &chain.tree, &open.tree],
        ] {
            let tree = parts.into_iter().flatten().copied().collect();
            cases.push(Case {
                tree,
                ..open.clone()
            });
        }
    }
    cases
}

/// FROM clauses (85) and brackets (90), below one another, and a RUN at this depth.
pub fn subs(depth: usize) -> Case {
    let mut records = Vec::new();
    let kinds = [85, 90];
    for level in 1..depth {
        records.push(Record::new(kinds[(level + 1) % 2], 2));
    }
    records.push(Record::new(RUN, 0));
    for level in (1..depth).rev() {
        records.push(Record::new([LIST, NONE][(level + 1) % 2], 0));
    }
    of(&records, &[])
}

/// Open quotes and comments in every other place that takes a text: none of them is looked at.
fn other_texts() -> Vec<Case> {
    let open = || Record::part(TEXT, 0, 0, 2);
    let valued = || Record::part(TOKEN, 60 | VALUE_PRESENT, 0, 2);
    let run = Record::new(RUN, 1);
    let none = Record::new(NONE, 0);
    let list = |count| Record::new(LIST, count);
    let trees: [&[Record]; 13] = [
        // The expression of a CHECK that has no source, an empty one, and a whole one.
        &[Record::new(CHECK, 2), run, valued(), none],
        &[Record::new(CHECK, 2), run, valued(), Record::new(TEXT, 0)],
        &[
            Record::new(CHECK, 2),
            run,
            valued(),
            Record::part(TEXT, 0, 2, 1),
        ],
        // A RUN for a CHECK, and a column's CHECK.
        &[Record::new(120, 2), none, run, valued()],
        &[
            Record::new(100, 3),
            run,
            valued(),
            none,
            list(1),
            run,
            valued(),
        ],
        // The two options of a table.
        &[Record::new(98, 4), list(0), list(0), open(), none],
        &[Record::new(98, 4), list(0), list(0), none, open()],
        // Types, their parameters and operators, domains and their constraints.
        &[Record::new(107, 3), open(), none, Record::new(NUMBER, 0)],
        &[Record::new(115, 2), open(), open()],
        &[Record::new(116, 2), open(), open()],
        &[
            Record::new(60, 4),
            open(),
            open(),
            none,
            list(1),
            Record::new(117, 2),
            open(),
            run,
            valued(),
        ],
        &[Record::new(61, 1), open()],
        &[
            Record::new(113, 6),
            list(0),
            open(),
            none,
            none,
            list(0),
            none,
        ],
    ];
    let case = |records: &[Record]| of(records, b"/*a").with(STRICT);
    trees.into_iter().map(case).collect()
}

/// Sources of some thousand bytes, open all along and ended by their last bytes, or opened by their last byte.
fn long() -> Vec<Case> {
    const LONG: usize = 3_000;
    let ends = [("/*", ""), ("/*", "*/"), ("--", "\n`"), ("'", "'")];
    let source = |(begin, end)| format!("{begin}{}{end}", "x".repeat(LONG));
    let sources = ends.map(source);
    sources.map(|source| check(&source).with(STRICT)).to_vec()
}
