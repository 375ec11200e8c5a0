//! The cases of document 01, section 6, the refusals of section 3 that a caller of this crate can meet, and of document 02
//! line and column, request ix, CHECK sources that are left open, request vii, and the SQLite edition, request viii.

use kinyandoma::{
    measure, measure_with, render, render_to_string, render_to_string_with, render_with, Kind,
    Node, Options, Reason, Run, Stream, Token,
};

type Given = (Token, Option<&'static str>);

const fn id(value: &'static str) -> Given {
    (Token::TK_ID, Some(value))
}

const fn bare(token: Token) -> Given {
    (token, None)
}

/// `DROP TYPE IF EXISTS geo;` as section 6 has it in hex.
const TREE: [u8; 48] = [
    0x53, 0x4E, 0x0A, 0, 0, 0, 1, 0, 0, 0, 0, 0, 0, 0, 0, 0, //
    0x53, 0x4E, 0x3D, 0, 1, 0, 1, 0, 0, 0, 0, 0, 0, 0, 0, 0, //
    0x53, 0x4E, 0x04, 0, 0, 0, 0, 0, 0, 0, 0, 0, 3, 0, 0, 0,
];
const TEXT: &[u8] = b"geo";
const WRITTEN: &str = "DROP TYPE IF EXISTS geo;";

/// S1 to S12.
const STREAMS: [(&[Given], &str); 12] = [
    (&[], ""),
    (&[id("a"), bare(Token::TK_COMMA), id("b")], "a, b"),
    (&[id("a"), bare(Token::TK_DOT), id("b")], "a.b"),
    (
        &[id("f"), bare(Token::TK_LP), id("x"), bare(Token::TK_RP)],
        "f (x)",
    ),
    (
        &[
            id("INT"),
            bare(Token::TK_LBRACKET),
            bare(Token::TK_RBRACKET),
        ],
        "INT[]",
    ),
    (&[bare(Token::TK_BLOB), id("a")], "X''a"),
    (
        &[id("a"), bare(Token::TK_BLOB), bare(Token::TK_COMMA)],
        "a X'',",
    ),
    (
        &[
            (Token::TK_BEGIN, Some("\n")),
            id("x"),
            (Token::TK_SEMI, Some("\n")),
            bare(Token::TK_END),
        ],
        "BEGIN\nx;\nEND",
    ),
    (&[id("a"), id(""), id("b")], "a b"),
    (
        &[(Token::TK_BEGIN, Some("")), bare(Token::TK_END)],
        "BEGINEND",
    ),
    (&[id("\x0B"), id("a")], "\x0B a"),
    (&[(Token::TK_LP, Some("z")), id("b")], "(z b"),
];

#[test]
fn streams_s1_to_s12() {
    for (tokens, expected) in STREAMS {
        let (mut stream, mut out) = (Stream::new(), Vec::new());
        for (token, value) in tokens {
            stream.append_to_vec(*token, *value, &mut out).unwrap();
        }
        assert_eq!(out, expected.as_bytes(), "{tokens:?}");
        assert_eq!((stream.line(), stream.column()), end_of(expected));
    }
}

/// Line and column behind a text.
fn end_of(text: &str) -> (usize, usize) {
    let last = text.rsplit('\n').next().unwrap_or_default();
    (text.matches('\n').count(), last.len())
}

/// Request ix: right after every append, whatever value it wrote.
#[test]
fn line_and_column_follow_every_append() {
    const VALUES: [&str; 9] = [
        "\n",
        "a",
        "\n\n",
        "a\nb",
        "\nb",
        "b\n",
        "",
        "\u{E9}\n\u{20AC}",
        "\r",
    ];
    let long = format!("{}\n{}", "x".repeat(70), "y".repeat(20));
    let (mut stream, mut out) = (Stream::new(), Vec::new());
    assert_eq!((stream.line(), stream.column()), (0, 0));
    for token in [
        Token::TK_ID,
        Token::TK_BEGIN,
        Token::TK_SEMI,
        Token::TK_BLOB,
    ] {
        for value in VALUES.into_iter().map(Some).chain([None, Some(&long[..])]) {
            stream.append_to_vec(token, value, &mut out).unwrap();
            let text = std::str::from_utf8(&out).unwrap();
            assert_eq!((stream.line(), stream.column()), end_of(text), "{text:?}");
        }
    }
}

#[test]
fn the_tree_in_hex() {
    assert_eq!(measure(&TREE, TEXT), Ok(24));
    assert_eq!(render_to_string(&TREE, TEXT).as_deref(), Ok(WRITTEN));
    let mut out = [0; 23];
    let refusal = render(&TREE, TEXT, &mut out).unwrap_err();
    assert_eq!((refusal.number, refusal.place), (8, 24));
    assert_eq!(refusal.reason, Reason::NoRoom);
    assert_eq!(out, [0; 23]);
}

#[test]
fn a_wrong_mark_with_bad_utf8_is_2() {
    let mut tree = TREE;
    tree[0] = 0;
    let refusal = measure(&tree, b"ge\xFF").unwrap_err();
    assert_eq!((refusal.number, refusal.place), (2, 2));
    assert_eq!(refusal.reason, Reason::NotUtf8);
    assert_eq!(measure(&tree, TEXT).unwrap_err().reason, Reason::Mark);
}

/// Request ii: the bytes from the place on begin a character that is not whole.
#[test]
fn a_text_that_is_cut_off_is_12() {
    let mut wrong_mark = TREE;
    wrong_mark[0] = 0;
    for text in [&b"ge\xC3"[..], b"ge\xE2\x82", b"ge\xF0\x9F\x98"] {
        for tree in [TREE, wrong_mark] {
            let mut out = [0; 24];
            let refusal = render(&tree, text, &mut out).unwrap_err();
            assert_eq!(measure(&tree, text), Err(refusal));
            assert_eq!((refusal.number, refusal.place), (12, 2));
            assert_eq!(refusal.reason, Reason::CutOff);
            assert_eq!(out, [0; 24]);
        }
    }
    let told = measure(&TREE, b"ge\xC3").unwrap_err().to_string();
    let expected = "refused with 12, place 2: the text ends in the middle of a character, which begins at byte 2; \
                    give all of it: some of its end is missing";
    assert_eq!(told, expected);
}

#[test]
fn a_text_that_no_end_can_mend_is_2() {
    for text in [&b"ge\xC0"[..], b"ge\xF0\x80", b"ge\xED\xA0", b"ge\xE2\x82o"] {
        let refusal = measure(&TREE, text).unwrap_err();
        assert_eq!((refusal.number, refusal.place), (2, 2));
        assert_eq!(refusal.reason, Reason::NotUtf8);
    }
}

#[test]
fn a_check_whose_source_has_a_comment() {
    let check = Node::new(Kind::Check).child(Run::new()).text("a--b");
    let (tree, text) = check.finish().unwrap();
    assert_eq!(
        render_to_string(&tree, &text).as_deref(),
        Ok("CHECK (a--b \n)")
    );
}

/// A Check with this source.
fn check(source: &str) -> (Vec<u8>, Vec<u8>) {
    let check = Node::new(Kind::Check).child(Run::new()).text(source);
    check.finish().unwrap()
}

/// Request vii: what would swallow the bracket is refused with the switch on, and written with it off.
#[test]
fn an_open_source_is_9_with_the_switch_on() {
    let strict = Options::new().strict(true);
    for source in [
        "/*", "/*/", "a /* b", "'", "'a''", "\"", "`", "--\n'", "/**/'",
    ] {
        let (tree, text) = check(source);
        let mut out = [0; 32];
        let refusal = render_with(strict, &tree, &text, &mut out).unwrap_err();
        assert_eq!(out, [0; 32]);
        assert_eq!(measure_with(strict, &tree, &text), Err(refusal));
        assert_eq!((refusal.number, refusal.place), (9, 2), "{source}");
        assert_eq!(refusal.reason, Reason::OpenSource);
        let plain = render_to_string(&tree, &text);
        assert!(plain.is_ok(), "{source}");
        assert_eq!(
            render_to_string_with(strict.strict(false), &tree, &text),
            plain
        );
    }
    let (tree, text) = check("/*");
    let told = measure_with(strict, &tree, &text).unwrap_err().to_string();
    let expected = "refused with 9, place 2: the CHECK source of record 2 ends inside a block comment or a quote; \
                    close it: it would swallow the bracket behind it";
    assert_eq!(told, expected);
}

#[test]
fn a_whole_source_is_written_with_the_switch_on() {
    let strict = Options::new().strict(true);
    for source in [
        "", "a", "/**/", "/*'*/", "--", "--'", "a--/*", "''", "'/*'", "\"--\"", "`'`",
    ] {
        let (tree, text) = check(source);
        let plain = render_to_string(&tree, &text);
        assert!(plain.is_ok(), "{source}");
        assert_eq!(render_to_string_with(strict, &tree, &text), plain);
    }
}

/// The body of a table with these two options.
fn body(first: Option<&str>, second: Option<&str>) -> (Vec<u8>, Vec<u8>) {
    let body = Node::new(Kind::ColumnsAndConstraints)
        .empty_list()
        .empty_list();
    let with = |body: Node, option: Option<&str>| match option {
        Some(text) => body.text(text),
        None => body.none(),
    };
    with(with(body, first), second).finish().unwrap()
}

/// An operator clause with this text.
fn operator(op: &str) -> (Vec<u8>, Vec<u8>) {
    let clause = Node::new(Kind::OperatorClause).text(op).text("f'");
    clause.finish().unwrap()
}

/// Request viii: a comma where both options are there, an empty one too.
#[test]
fn the_sqlite_edition_has_a_comma_between_the_options() {
    let sqlite = Options::new().sqlite(true);
    let rowid = Some("without \u{A0} RowId");
    for (first, second, plain, for_sqlite) in [
        (None, None, "()", "()"),
        (rowid, None, "() WITHOUT RowId", "() WITHOUT RowId"),
        (None, Some("STRICT"), "() STRICT", "() STRICT"),
        (
            rowid,
            Some("STRICT"),
            "() WITHOUT RowId STRICT",
            "() WITHOUT RowId, STRICT",
        ),
        (rowid, Some(""), "() WITHOUT RowId ", "() WITHOUT RowId, "),
    ] {
        let (tree, text) = body(first, second);
        assert_eq!(render_to_string(&tree, &text).as_deref(), Ok(plain));
        let written = render_to_string_with(sqlite, &tree, &text);
        assert_eq!(written.as_deref(), Ok(for_sqlite));
        assert_eq!(measure_with(sqlite, &tree, &text), Ok(for_sqlite.len()));
        let written = render_to_string_with(sqlite.sqlite(false), &tree, &text);
        assert_eq!(written.as_deref(), Ok(plain));
    }
}

#[test]
fn the_sqlite_edition_doubles_quotes_in_an_operator() {
    let sqlite = Options::new().sqlite(true);
    for (op, plain, for_sqlite) in [
        ("+", "OPERATOR '+' f'", "OPERATOR '+' f'"),
        ("'", "OPERATOR ''' f'", "OPERATOR '''' f'"),
        ("it's", "OPERATOR 'it's' f'", "OPERATOR 'it''s' f'"),
        ("''", "OPERATOR '''' f'", "OPERATOR '''''' f'"),
        ("\"`", "OPERATOR '\"`' f'", "OPERATOR '\"`' f'"),
    ] {
        let (tree, text) = operator(op);
        assert_eq!(render_to_string(&tree, &text).as_deref(), Ok(plain));
        let written = render_to_string_with(sqlite, &tree, &text);
        assert_eq!(written.as_deref(), Ok(for_sqlite));
    }
}

#[test]
fn another_without_rowid_text_is_10_in_the_sqlite_edition() {
    let sqlite = Options::new().sqlite(true);
    for text in [
        "",
        " ",
        "WITHOUT",
        "ROWID",
        "a b",
        "WITHOUT ROWID x",
        "ROWID WITHOUT",
        "w\u{131}thout rowid",
    ] {
        let (tree, text) = body(Some(text), None);
        let mut out = [0; 32];
        let refusal = render_with(sqlite, &tree, &text, &mut out).unwrap_err();
        assert_eq!(out, [0; 32]);
        assert_eq!(measure_with(sqlite, &tree, &text), Err(refusal));
        assert_eq!((refusal.number, refusal.place), (10, 3));
        assert_eq!(refusal.reason, Reason::WithoutRowid);
        assert!(measure(&tree, &text).is_ok());
    }
    let (tree, text) = body(Some("a b"), None);
    let told = measure_with(sqlite, &tree, &text).unwrap_err().to_string();
    let expected = "refused with 10, place 3: the without-rowid text of record 3 is not the two words WITHOUT and ROWID; \
                    write these two, or NONE: SQLite reads nothing else there";
    assert_eq!(told, expected);
}

/// Bits that mean nothing neither turn a switch on nor off, nor does one switch turn the other.
#[test]
fn other_bits_are_ignored() {
    let (tree, text) = check("'");
    let (other_tree, other_text) = body(Some("a b"), None);
    for bits in [0, 1 << 2, 1 << 8, 1 << 31, u32::MAX - 3] {
        let off = Options::from_bits(bits);
        for strict in [false, true] {
            for sqlite in [false, true] {
                let on = off.strict(strict).sqlite(sqlite);
                assert_eq!(on.bits(), bits | u32::from(strict) | u32::from(sqlite) << 1);
                assert_eq!((on.is_strict(), on.is_sqlite()), (strict, sqlite));
                let number = |refusal: kinyandoma::Refusal| refusal.number;
                let source = measure_with(on, &tree, &text).map_err(number);
                assert_eq!(source.err(), strict.then_some(9));
                let rowid = measure_with(on, &other_tree, &other_text).map_err(number);
                assert_eq!(rowid.err(), sqlite.then_some(10));
            }
        }
    }
    assert_eq!(Options::new().bits(), 0);
    assert_eq!(Options::new().strict(true).bits(), 1);
    assert_eq!(Options::new().sqlite(true).bits(), 2);
}

/// A FROM clause in brackets, `depth` records deep.
fn nested(depth: usize) -> Node {
    let table = |table: Node| Node::new(Kind::FromClause).child(table).empty_list();
    let inner = Node::new(Kind::Table).child(Run::new()).none().none();
    let mut from = table(inner);
    for _ in 0..(depth - 3) / 2 {
        from = table(Node::new(Kind::Sub).child(from).none());
    }
    from
}

#[test]
fn depth_64_passes_and_65_gives_6() {
    let below = |root: Kind, node: Node| Node::new(root).child(node).none();
    let (tree, text) = below(Kind::Sub, nested(63)).finish().unwrap();
    assert!(measure(&tree, &text).is_ok());
    let (tree, text) = nested(65).finish().unwrap();
    let refusal = measure(&tree, &text).unwrap_err();
    assert_eq!(
        (refusal.number, refusal.reason),
        (6, Reason::TooDeep),
        "{refusal}"
    );
}

#[test]
fn trees_of_wrong_lengths_are_1() {
    for length in [0, 1, 15, 17, 65_537, 65_552] {
        let refusal = measure(&vec![0; length], b"").unwrap_err();
        assert_eq!((refusal.number, refusal.place), (1, 0));
        assert_eq!(refusal.reason, Reason::TreeLength);
    }
}

#[test]
fn missing_and_left_over_records_are_7() {
    let refusal = measure(&TREE[..32], TEXT).unwrap_err();
    assert_eq!((refusal.number, refusal.place), (7, 2));
    let longer = [&TREE[..], &TREE[..16]].concat();
    let refusal = measure(&longer, TEXT).unwrap_err();
    assert_eq!((refusal.number, refusal.place), (7, 3));
    assert_eq!(refusal.reason, Reason::RecordCount);
}

#[test]
fn a_text_that_is_too_long_is_2() {
    for byte in [b'x', 0xC3, 0xFF] {
        let refusal = measure(&TREE, &vec![byte; 65_537]).unwrap_err();
        assert_eq!((refusal.number, refusal.place), (2, 65_536));
        assert_eq!(refusal.reason, Reason::TextTooLong);
    }
}

#[test]
fn refused_appends_change_nothing() {
    let mut stream = Stream::new();
    let mut out = *b"........";
    stream
        .append(Token::TK_ID, Some("abc"), &mut out[..3])
        .unwrap();
    let before = stream.clone();
    let long = "x".repeat(65_537);
    let refused = [
        (stream.append(60, Some("d"), &mut out[..2]), (1, 0)),
        (stream.append(169, None, &mut out), (4, 0)),
        (stream.append(u16::MAX, None, &mut out), (4, 0)),
        (stream.append(u16::MAX, None, &mut out[..2]), (1, 0)),
        (stream.append(60, Some(&long), &mut out), (2, 65_536)),
        (stream.append(60, Some("d"), &mut out[..4]), (8, 2)),
    ];
    for (answer, (number, place)) in refused {
        let refusal = answer.unwrap_err();
        assert_eq!((refusal.number, refusal.place), (number, place));
    }
    assert_eq!(stream, before);
    assert_eq!((stream.line(), stream.column()), (0, 3));
    assert_eq!(&out, b"abc.....");
    assert_eq!(stream.append(60, Some("d"), &mut out), Ok(2));
    assert_eq!(&out, b"abc d...");
}

#[test]
fn a_refused_append_leaves_the_vector() {
    let mut stream = Stream::new();
    let mut out = vec![];
    assert!(stream.append_to_vec(60, Some("a"), &mut out).is_ok());
    assert!(stream.append_to_vec(169, None, &mut out).is_err());
    assert_eq!(out, b"a");
    let refusal = stream.append_to_vec(60, None, &mut Vec::new()).unwrap_err();
    assert_eq!(refusal.reason, Reason::StreamRecord);
    let told = "refused with 1, place 0: the output is shorter than what the stream has written, or the stream record is \
                malformed: it is no bit with count, line and column, or its line or column is larger than its count; \
                lend the same output, at its full length";
    assert_eq!(refusal.to_string(), told);
}
