//! Value texts as typed: printable ASCII stands for itself, any other byte is written `\xNN`.
//!
//! Value text needs no such byte, but a job to be refused may hold one, and it is shown too.

pub fn from_bytes(bytes: &[u8]) -> String {
    let shown = |byte: &u8| match byte {
        b'\\' => "\\x5c".to_string(),
        b' '..=b'~' => char::from(*byte).to_string(),
        _ => format!("\\x{byte:02x}"),
    };
    bytes.iter().map(shown).collect()
}

pub fn to_bytes(text: &str) -> Result<Vec<u8>, String> {
    let mut bytes = Vec::new();
    let mut rest = text;
    while let Some((before, after)) = rest.split_once('\\') {
        bytes.extend(before.bytes());
        let digits = after.strip_prefix('x').and_then(|after| after.get(..2));
        let byte = digits.and_then(|digits| u8::from_str_radix(digits, 16).ok());
        bytes.push(byte.ok_or("a `\\` not followed by x and two hexadecimal digits")?);
        rest = &after[3..];
    }
    bytes.extend(rest.bytes());
    Ok(bytes)
}
