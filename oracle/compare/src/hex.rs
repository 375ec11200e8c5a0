//! Bytes for a reader.

pub fn hex(bytes: &[u8]) -> String {
    let digits: String = bytes.iter().map(|byte| format!("{byte:02x}")).collect();
    format!("({} bytes) {digits}", bytes.len())
}
