//! Stand-in: a match on byte strings that does not look at the case of ASCII letters.

#[macro_export]
macro_rules! match_ignore_ascii_case {
    (match $input:ident { $($key:literal => $value:expr,)* _ => $other:expr $(,)? }) => {
        $(if $input.eq_ignore_ascii_case($key) { $value } else)* { $other }
    };
}

#[cfg(test)]
mod tests {
    fn number(word: &[u8]) -> u8 {
        match_ignore_ascii_case!(match word {
            b"ONE" => 1,
            b"TWO" => 2,
            _ => 0,
        })
    }

    #[test]
    fn case_is_ignored() {
        assert_eq!([number(b"one"), number(b"TwO"), number(b"on")], [1, 2, 0]);
    }
}
