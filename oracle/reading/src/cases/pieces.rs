//! Short texts made of pieces, a family for each sentence of the rule.

use crate::lexeme::OPERATORS;

/// Every byte about which the rule says something, and its neighbours, put behind what a lexeme begins with.
const BEHIND: &[u8] = b"\t\n \"#$%'()*+,-./09:;<=>?@AZ[\\]^_`az{|}~\x7F\x80\xFF";
const BEGINNINGS: [&[u8]; 4] = [b"a", b"1", b":", b"+"];

/// Blanks before, between and behind; what only looks blank.
const BLANKS: &[&[u8]] = &[
    b" ",
    b"\n",
    b"\n\n  \n",
    b" a",
    b"a ",
    b"a\n",
    b"\na \n",
    b"a \n b",
    b"a\r\nb",
    b" \t",
    b"\t a",
    b"a \t",
    b"a\xC2\xA0b",
    b"\xC2\x85",
    b"\xEF\xBB\xBFa",
    b", \n",
    b"1 \n.",
    b"\0 a",
];

/// With `Q` for each of the three quotes.
const QUOTES: &[&str] = &[
    "QQ",
    "QQQ",
    "QQQQ",
    "QQQQQ",
    "QaQ",
    "QaQQbQ",
    "QQQaQ",
    "QaQQQ",
    "QaQQ",
    "Qa",
    "QaQbQ",
    "QaQ QbQ",
    "Qa b\n\tcQ",
    "Q\0Q",
    "Q\u{E9}Q",
    "Q'\"`",
    "Q;--/*Q",
    "aQbQc",
    "a QbQQ",
    "QaQ ",
    "Qa ",
    "1QQ",
    "?QQ",
    "+QQ",
];

/// With `X` for each of the two letters.
const BLOBS: &[&str] = &[
    "X''", "X'0aF'", "X'0'", "X'zz'", "X' \n\t'", "X'\0'", "X'\"'", "X'a''b'", "X'''", "X''''",
    "X''a", "X''X''", "X", "X ", "X '0a'", "X\"0a\"", "X`0a`", "X'", "X'0a", "X'0a\"", "a, X'0",
    "XX''", "aX''", "_X''", "1X''", ".X''", ":X''", "+X''", "X0''", "Y''",
];

/// Digits and dots.
const NUMBERS: &[&[u8]] = &[
    b"007",
    b"1.0",
    b"1.a",
    b"1. 5",
    b"1 .5",
    b"1.\n5",
    b"1..5",
    b"1...",
    b"1.5.",
    b"1.5.6.7",
    b"1.5a",
    b"1.'a'",
    b"1._",
    b"1.\x80",
    b"1.\t",
    b".5",
    b"..5",
    b"a.1",
    b"a.1.5",
    b"a1.5",
    b":1.5",
    b"1e5",
    b"1.5e-5",
    b"0x1F",
    b"1_000",
    b"1-.5",
    b"-1.5",
    b"(1.5)",
    b"99999999999999999999999",
    b"1.9999999999999999999999",
];

/// Names and variables.
const NAMES: &[&[u8]] = &[
    b"a$b_1\x80Z",
    b"_",
    b"__",
    b"\xFF\x80",
    b"\xC3\xA9",
    b"$a",
    b"$$",
    b"$ a",
    b"a$",
    b"??",
    b"?1?2",
    b"?1a",
    b"? 1",
    b"?$",
    b"::a",
    b":a:b",
    b":1a",
    b": a",
    b"@@",
    b"@a$@",
    b"@\x80",
    b"a@b",
    b":?@$",
    b":'a'",
    b"?,?",
];

/// Bytes of operators, and marks beside each other.
const SIGNS: &[&[u8]] = &[
    b"- -", b"->>>", b"--a", b"a->>'b'", b"/*a*/", b"=!", b"a<-1", b"a||b", b"*,*", b"<\t", b"=#",
    b"=^", b"!a", b"~?1", b"(*)", b"()", b"a[1].b;", b",,,", b"..", b";;\n", b"[[]",
];

/// Lexemes, and then what cannot be read.
const FAILING: &[&[u8]] = &[
    b"a \t b",
    b"a b c \x7F",
    b"  \r",
    b", {",
    b"1.5\\",
    b"?1 }",
    b"X'' ^",
    b"'a'#",
    b"a\0",
    b"a 'b ''",
    b"a \n \"",
    b"1 x'",
];

/// All of them.
pub fn all() -> Vec<Vec<u8>> {
    let listed = [BLANKS, NUMBERS, NAMES, SIGNS, FAILING].concat();
    let mut texts: Vec<Vec<u8>> = listed.into_iter().map(<[u8]>::to_vec).collect();
    texts.push(OPERATORS.join(" ").into_bytes());
    texts.extend(behind());
    texts.extend(exchanged(QUOTES, "Q", &["'", "\"", "`"]));
    texts.extend(exchanged(BLOBS, "X", &["X", "x"]));
    texts
}

/// Each byte behind each beginning, and behind nothing.
fn behind() -> Vec<Vec<u8>> {
    let every: Vec<u8> = (0..=u8::MAX).collect();
    let mut texts = each_behind(b"", &every);
    let beginnings = BEGINNINGS.iter();
    texts.extend(beginnings.flat_map(|beginning| each_behind(beginning, BEHIND)));
    texts
}

/// A beginning with each byte behind it: those that can be read on in a row, the others each alone.
fn each_behind(beginning: &[u8], bytes: &[u8]) -> Vec<Vec<u8>> {
    let (closed, open): (Vec<u8>, Vec<u8>) = bytes.iter().partition(|&&byte| goes_on(byte));
    let pair = |byte: &u8| [beginning, &[*byte]].concat();
    let row = closed.iter().map(pair).collect::<Vec<_>>().join(&b' ');
    [row].into_iter().chain(open.iter().map(pair)).collect()
}

/// Whether the text can be read on behind this byte.
fn goes_on(byte: u8) -> bool {
    let control = byte.is_ascii_control() && byte != b'\n';
    !control && !b"\"#'\\^`{}".contains(&byte)
}

/// The patterns, with each of these for the letter.
fn exchanged(patterns: &[&str], letter: &str, each: &[&str]) -> Vec<Vec<u8>> {
    let with = |new: &&str| {
        let texts = patterns.iter().map(|pattern| pattern.replace(letter, new));
        texts.map(String::into_bytes).collect::<Vec<_>>()
    };
    each.iter().flat_map(with).collect()
}
