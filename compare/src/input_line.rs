//! The lines that `decode` reads: "The program `decode`" in docs/PROTOCOL.md.

#[derive(Debug, Clone, PartialEq, Eq)]
pub enum InputLine {
    Skipped,
    Telegram(Vec<u8>),
    Unreadable,
}

impl InputLine {
    /// `text` is the line without the 0A at its end.
    pub fn parse(text: &[u8]) -> Self {
        if text.starts_with(b"#") {
            return InputLine::Skipped;
        }
        // A last carriage return counts as a space, and so changes nothing.
        let text = text.strip_suffix(b"\r").unwrap_or(text);
        if text == b"-" {
            return InputLine::Telegram(Vec::new());
        }
        match pairs(text) {
            None => InputLine::Unreadable,
            Some(bytes) if bytes.is_empty() => InputLine::Skipped,
            Some(bytes) => InputLine::Telegram(bytes),
        }
    }
}

/// The lines of an input, each without its 0A. Nothing after the last 0A is
/// no line.
pub fn split(input: &[u8]) -> impl Iterator<Item = &[u8]> {
    input
        .split_inclusive(|&byte| byte == b'\n')
        .map(|line| line.strip_suffix(b"\n").unwrap_or(line))
}

/// The bytes of all pairs, or nothing if anything else stands in the text.
pub fn pairs(text: &[u8]) -> Option<Vec<u8>> {
    let mut bytes = Vec::new();
    for word in text.split(|&byte| byte == b' ') {
        if word.len() % 2 != 0 {
            return None;
        }
        for pair in word.chunks_exact(2) {
            bytes.push(digit(pair[0])? << 4 | digit(pair[1])?);
        }
    }
    Some(bytes)
}

fn digit(character: u8) -> Option<u8> {
    match character {
        b'0'..=b'9' => Some(character - b'0'),
        b'a'..=b'f' => Some(character - b'a' + 10),
        b'A'..=b'F' => Some(character - b'A' + 10),
        _ => None,
    }
}

#[cfg(test)]
mod tests {
    use super::*;

    fn telegram(bytes: &[u8]) -> InputLine {
        InputLine::Telegram(bytes.to_vec())
    }

    #[test]
    fn skips_empty_and_comment_lines() {
        for text in [&b""[..], b"   ", b"\r", b"  \r", b"#", b"# \xFF"] {
            assert_eq!(InputLine::parse(text), InputLine::Skipped, "{text:?}");
        }
    }

    #[test]
    fn reads_pairs_in_any_case_and_spacing() {
        assert_eq!(InputLine::parse(b"E5"), telegram(&[0xE5]));
        assert_eq!(
            InputLine::parse(b"  10aF  0b \r"),
            telegram(&[0x10, 0xAF, 0x0B])
        );
        assert_eq!(InputLine::parse(b"-"), telegram(&[]));
        assert_eq!(InputLine::parse(b"-\r"), telegram(&[]));
    }

    #[test]
    fn anything_else_is_unreadable() {
        for text in [
            &b"1"[..],
            b"10 7",
            b"1 0",
            b"E5 1 0",
            b"10\t7B",
            b"10\r7B",
            b"E5\r\r",
            b"--",
            b" -",
            b"- ",
            b"- \r",
            b" #",
            b"0x10",
            b"\xEF\xBC\x91\xEF\xBC\x90",
        ] {
            assert_eq!(InputLine::parse(text), InputLine::Unreadable, "{text:?}");
        }
    }

    #[test]
    fn splits_at_every_newline() {
        let lines = |input| split(input).collect::<Vec<_>>();
        assert!(lines(b"").is_empty());
        assert_eq!(lines(b"\n\nE5"), [&b""[..], b"", b"E5"]);
        assert_eq!(lines(b"E5\n"), [b"E5"]);
    }
}
