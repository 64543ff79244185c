//! Texts in quotes: spelled as a listing spells a string, and `\xNN` for any byte.

/// The bytes of the quoted text that begins here, and the length of its spelling.
pub fn read(spelling: &str) -> Result<(Vec<u8>, usize), String> {
    let mut out = Vec::new();
    let mut at = 1;
    loop {
        let rest = &spelling[at..];
        match rest.bytes().next() {
            None => return Err("the quotes are not closed".to_string()),
            Some(b'"') => return Ok((out, at + 1)),
            Some(b'\\') => {
                let (byte, length) = escape(&rest[1..])?;
                out.push(byte);
                at += 1 + length;
            }
            Some(b @ 0x20..=0x7e) => {
                out.push(b);
                at += 1;
            }
            Some(b) => return Err(format!("a byte {b:#04x} in quotes: write it as \\x{b:02x}")),
        }
    }
}

/// The byte of an escape, and its length without the backslash.
fn escape(rest: &str) -> Result<(u8, usize), String> {
    let simple = match rest.bytes().next() {
        Some(b'0') => Some(0),
        Some(b't') => Some(b'\t'),
        Some(b'r') => Some(b'\r'),
        Some(b'n') => Some(b'\n'),
        Some(b @ (b'\'' | b'"' | b'\\')) => Some(b),
        _ => None,
    };
    let hex = |digits: &str| u8::from_str_radix(digits, 16).ok().filter(|_| !digits.starts_with('+'));
    let coded = || match rest.strip_prefix("u{") {
        Some(code) => {
            let digits = &code[..code.find('}')?];
            Some((hex(digits).filter(|b| *b < 0x80)?, digits.len() + 3))
        }
        None => Some((hex(rest.strip_prefix('x')?.get(..2)?)?, 3)),
    };
    simple.map(|b| (b, 1)).or_else(coded).ok_or_else(|| {
        let shown: String = rest.chars().take(1).collect();
        format!("`\\{shown}` is no escape: there are \\0 \\t \\r \\n \\' \\\" \\\\ \\u{{..}} and \\xNN")
    })
}

/// The text in quotes.
pub fn spell(text: &[u8]) -> String {
    let mut out = String::from("\"");
    for b in text {
        match b {
            0 => out.push_str("\\0"),
            b'\t' => out.push_str("\\t"),
            b'\r' => out.push_str("\\r"),
            b'\n' => out.push_str("\\n"),
            b'"' => out.push_str("\\\""),
            b'\\' => out.push_str("\\\\"),
            0x20..=0x7e => out.push(char::from(*b)),
            0..=0x7f => out.push_str(&format!("\\u{{{b:x}}}")),
            _ => out.push_str(&format!("\\x{b:02x}")),
        }
    }
    out + "\""
}
