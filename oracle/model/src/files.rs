//! Cases as bytes, answers as lines.

use crate::damage::Case;
use std::io::{self, ErrorKind, Read, Write};

/// Options, tree length, text length, tree, text.
pub fn write_case(out: &mut impl Write, case: &Case) -> io::Result<()> {
    out.write_all(&case.options.to_le_bytes())?;
    for bytes in [&case.tree, &case.text] {
        write_length(out, bytes.len())?;
    }
    out.write_all(&case.tree)?;
    out.write_all(&case.text)
}

/// In four bytes.
pub fn write_length(out: &mut impl Write, length: usize) -> io::Result<()> {
    let length = u32::try_from(length).expect("a length of four bytes");
    out.write_all(&length.to_le_bytes())
}

/// The next case, or none at the end.
pub fn read_case(input: &mut impl Read) -> io::Result<Option<Case>> {
    let Some(options) = read_word(input)? else {
        return Ok(None);
    };
    let mut length = || read_word(input)?.ok_or(io::Error::from(ErrorKind::UnexpectedEof));
    let (tree, text) = (length()? as usize, length()? as usize);
    let mut case = Case::from((vec![0; tree], vec![0; text])).with(options);
    input.read_exact(&mut case.tree)?;
    input.read_exact(&mut case.text)?;
    Ok(Some(case))
}

/// None at the end of the input.
fn read_word(input: &mut impl Read) -> io::Result<Option<u32>> {
    let mut bytes = [0; 4];
    match input.read_exact(&mut bytes) {
        Ok(()) => Ok(Some(u32::from_le_bytes(bytes))),
        Err(error) if error.kind() == ErrorKind::UnexpectedEof => Ok(None),
        Err(error) => Err(error),
    }
}

/// What the model says of a case: `NUMBER PLACE`.
pub fn answer(case: &Case) -> String {
    let (number, place) = case.refusal();
    format!("{number} {place}")
}

pub fn hex(bytes: &[u8]) -> String {
    bytes.iter().map(|byte| format!("{byte:02x}")).collect()
}
