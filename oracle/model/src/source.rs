//! How the source of a CHECK ends (request vii).

/// Whether it ends inside a block comment or inside a quote. It is read from the left, and what opens is passed over as a
/// whole: nothing opens inside it.
pub fn ends_inside(source: &str) -> bool {
    let mut rest = source.as_bytes();
    loop {
        let behind = match rest {
            [] => return false,
            [b'/', b'*', inside @ ..] => behind(inside, b"*/"),
            [quote @ (b'\'' | b'"' | b'`'), inside @ ..] => behind(inside, &[*quote]),
            // The newline that is written behind the source ends the comment, so that it may stay open.
            [b'-', b'-', inside @ ..] => behind(inside, b"\n").or(Some(&[])),
            [_, others @ ..] => Some(others),
        };
        match behind {
            Some(behind) => rest = behind,
            None => return true,
        }
    }
}

/// What stands behind the first such end, if there is one.
fn behind<'a>(bytes: &'a [u8], end: &[u8]) -> Option<&'a [u8]> {
    let mut places = bytes.windows(end.len());
    let at = places.position(|bytes| bytes == end)?;
    Some(&bytes[at + end.len()..])
}
