//! The spelling table, one line for each number.

use crate::token::{kind_of, LAST_NUMBER};

/// With names: `NUMBER NAME SPELLING`.
pub fn named_table() -> String {
    table(true)
}

/// Without: `NUMBER SPELLING`.
pub fn bare_table() -> String {
    table(false)
}

fn table(named: bool) -> String {
    (0..=LAST_NUMBER)
        .map(|number| line(number, named) + "\n")
        .collect()
}

fn line(number: u16, named: bool) -> String {
    let Some(kind) = kind_of(number) else {
        return format!("{number} unknown");
    };
    let mut words = vec![number.to_string()];
    if named {
        words.push(kind.to_string());
    }
    words.extend(kind.as_str().map(str::to_string));
    words.join(" ")
}
