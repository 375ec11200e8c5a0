//! What a without-rowid text may say in the SQLite edition (request viii).

/// The words, in this order.
const WORDS: [&str; 2] = ["WITHOUT", "ROWID"];

/// Whether the text has just two parts, WITHOUT and ROWID, each letter in either case. It is split at white space as Unicode
/// has it, and empty parts do not count.
pub fn says_without_rowid(text: &str) -> bool {
    let parts: Vec<&str> = text.split_whitespace().collect();
    let same = |(part, word): (&&str, &str)| part.eq_ignore_ascii_case(word);
    parts.len() == WORDS.len() && parts.iter().zip(WORDS).all(same)
}
