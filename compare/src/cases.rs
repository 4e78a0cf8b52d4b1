//! The fixed test input for `decode`: every rule of docs/PROTOCOL.md that the
//! program follows, at its edges.

mod frames;
mod records;
mod replies;
mod text;

/// The whole test input, the same at every call.
pub fn all() -> Vec<u8> {
    let mut cases = Cases::default();
    cases.note("Test input for the program decode, written by: compare cases");
    frames::add(&mut cases);
    replies::add(&mut cases);
    records::add(&mut cases);
    text::add(&mut cases);
    cases.into_input_without_last_newline()
}

/// A telegram as upper-case pairs with one space between them.
pub fn plain_text(telegram: &[u8]) -> String {
    if telegram.is_empty() {
        return String::from("-");
    }
    let pairs: Vec<String> = telegram.iter().map(|byte| format!("{byte:02X}")).collect();
    pairs.join(" ")
}

/// Collects the lines of the test input.
#[derive(Default)]
struct Cases {
    input: Vec<u8>,
}

impl Cases {
    /// Says in a comment line what follows.
    fn note(&mut self, text: &str) {
        self.line(format!("# {text}"));
    }

    fn telegram(&mut self, bytes: impl AsRef<[u8]>) {
        self.line(plain_text(bytes.as_ref()));
    }

    /// A good reply telegram with this body.
    fn body(&mut self, body: impl AsRef<[u8]>) {
        self.telegram(replies::reply_with_body(body.as_ref()));
    }

    /// A line just as it is given; it gets the 0A here.
    fn line(&mut self, text: impl AsRef<[u8]>) {
        self.input.extend(text.as_ref());
        self.input.push(b'\n');
    }

    fn into_input_without_last_newline(mut self) -> Vec<u8> {
        self.input.pop();
        self.input
    }
}

/// A copy of the bytes with one of them changed.
fn with_byte(bytes: &[u8], place: usize, value: u8) -> Vec<u8> {
    let mut changed = bytes.to_vec();
    changed[place] = value;
    changed
}

/// A copy of the bytes with others behind them.
fn with_more(bytes: &[u8], more: &[u8]) -> Vec<u8> {
    [bytes, more].concat()
}

#[cfg(test)]
mod tests {
    use super::*;
    use crate::decoder::Decoder;
    use crate::input_line;

    #[test]
    fn the_input_is_of_fair_size_and_lacks_the_last_newline() {
        let input = all();
        assert!(input_line::split(&input).count() < 3000);
        assert_ne!(input.last(), Some(&b'\n'));
    }

    #[test]
    fn every_refusal_and_every_kind_of_line_occurs() {
        let mut decoder = Decoder::default();
        let lines: Vec<String> = input_line::split(&all())
            .flat_map(|line| decoder.decode_line(line))
            .collect();
        for number in (1..=7).chain(9..=16) {
            let end = format!(" number={number}");
            assert!(lines.iter().any(|line| line.ends_with(&end)), "{end}");
        }
        for kind in [
            "unreadable",
            "frame",
            "reply",
            "reading",
            "maker",
            "telegram",
            "fault",
        ] {
            let start = format!("kind={kind} ");
            assert!(lines.iter().any(|line| line.starts_with(&start)), "{start}");
        }
    }
}
