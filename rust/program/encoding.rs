//! What the bytes of an input are, where they are no plain text: asked only where it is refused.

/// How many bytes are looked at.
const ROOM: usize = 512;

/// What is said of these bytes, where they are of another kind than is due.
pub fn other_kind(bytes: &[u8]) -> Option<&'static str> {
    let bytes = &bytes[..bytes.len().min(ROOM)];
    match bytes {
        [0xff, 0xfe, ..] | [0xfe, 0xff, ..] => Some("the text is UTF-16, and plain ASCII is due: iconv -f UTF-16 -t ASCII FILE"),
        [0xef, 0xbb, 0xbf, ..] => Some("the text begins with the byte order mark of UTF-8, and plain ASCII is due: tail -c +4 FILE"),
        _ if is_wide(bytes, 1) => Some("the text is UTF-16, and plain ASCII is due: iconv -f UTF-16LE -t ASCII FILE"),
        _ if is_wide(bytes, 0) => Some("the text is UTF-16, and plain ASCII is due: iconv -f UTF-16BE -t ASCII FILE"),
        _ if bytes.iter().any(is_binary) => Some("this is binary data, and a text is due"),
        _ if bytes.contains(&b'\r') && !bytes.contains(&b'\n') => Some("the lines end in CR alone, and LF is due: tr '\\r' '\\n' <FILE"),
        _ => None,
    }
}

/// Whether all are characters of ASCII in two bytes, with the zero at this place.
fn is_wide(bytes: &[u8], zero: usize) -> bool {
    let parts = bytes.chunks(2);
    !bytes.is_empty() && parts.into_iter().all(|part| part.len() == 2 && part[zero] == 0 && part[1 - zero] < 0x80)
}

/// A byte that no text has.
fn is_binary(byte: &u8) -> bool {
    matches!(byte, 0..=8 | 11 | 12 | 14..=31 | 127)
}

#[cfg(test)]
mod tests {
    use super::*;

    #[test]
    fn kinds() {
        let begins = |bytes, with: &str| other_kind(bytes).is_some_and(|said| said.starts_with(with));
        assert!(begins(b"\xff\xfec\0c\0", "the text is UTF-16, "));
        assert!(begins(b"c\0c\0r\0\n\0", "the text is UTF-16, and plain ASCII is due: iconv -f UTF-16LE"));
        assert!(begins(b"\0c\0c\0r", "the text is UTF-16, and plain ASCII is due: iconv -f UTF-16BE"));
        assert!(begins(b"\xef\xbb\xbfccr 1\n", "the text begins with the byte order mark"));
        assert!(begins(b"\x7fELF", "this is binary data"));
        assert!(begins(b"ccr 1\rport a\r", "the lines end in CR alone"));
        assert_eq!([other_kind(b"ccr 1\r\nport caf\xc3\xa9\n"), other_kind(b"")], [None, None]);
    }
}
