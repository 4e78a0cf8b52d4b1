//! Reads one line of a test house.

use super::house::{Call, MOST_PLACES};
use crate::input_line;
use crate::line::{Row, Span};
use crate::reply::MeterAddress;

#[derive(Debug, PartialEq, Eq)]
pub enum HouseLine {
    Skipped,
    Area(Vec<u8>),
    Meter(Row),
    Fault(Vec<u8>),
    Retry(u8),
    Places(usize),
    Call(Call),
}

/// `text` is the line without the 0A at its end. None if it is unreadable.
pub fn read_line(text: &[u8]) -> Option<HouseLine> {
    if text.starts_with(b"#") {
        return Some(HouseLine::Skipped);
    }
    let text = text.strip_suffix(b"\r").unwrap_or(text);
    let words: Vec<&[u8]> = text
        .split(|&byte| byte == b' ')
        .filter(|word| !word.is_empty())
        .collect();
    let Some((&name, rest)) = words.split_first() else {
        return Some(HouseLine::Skipped);
    };
    // A line begins with its first word.
    if text.starts_with(b" ") {
        return None;
    }
    match (name, rest) {
        (b"area", _) => Some(HouseLine::Area(area(rest)?)),
        (b"meter", _) => Some(HouseLine::Meter(row(rest)?)),
        (b"fault", [_, ..]) => {
            let codes = rest.iter().map(|word| byte_number(word));
            Some(HouseLine::Fault(codes.collect::<Option<_>>()?))
        }
        (b"retry", [limit]) => Some(HouseLine::Retry(byte_number(limit)?)),
        (b"places", [count]) => {
            let count = decimal(count, MOST_PLACES as u32)?;
            Some(HouseLine::Places(count as usize))
        }
        (b"s", []) => Some(HouseLine::Call(Call::Search)),
        (b"p", [number, maker, version, medium]) => {
            let address = address(number, maker, version, medium)?;
            Some(HouseLine::Call(Call::Pick(address)))
        }
        (b"f", []) => Some(HouseLine::Call(Call::Fetch)),
        (b"r", []) => Some(HouseLine::Call(Call::Release)),
        _ => None,
    }
}

/// The bytes of pairs in words of any number of pairs.
fn area(words: &[&[u8]]) -> Option<Vec<u8>> {
    let pairs = input_line::pairs(&words.join(&b' '))?;
    (!pairs.is_empty()).then_some(pairs)
}

fn row(words: &[&[u8]]) -> Option<Row> {
    let [number, maker, version, medium, primary, bodies @ ..] = words else {
        return None;
    };
    let bodies = bodies.iter().map(|word| span(word));
    Some(Row {
        address: address(number, maker, version, medium)?,
        primary: hexadecimal(primary, 2)? as u8,
        bodies: bodies.collect::<Option<_>>()?,
    })
}

fn address(number: &[u8], maker: &[u8], version: &[u8], medium: &[u8]) -> Option<MeterAddress> {
    if number.len() != 8 {
        return None;
    }
    Some(MeterAddress {
        number: decimal(number, 99_999_999)?,
        maker: hexadecimal(maker, 4)?,
        version: hexadecimal(version, 2)? as u8,
        medium: hexadecimal(medium, 2)? as u8,
    })
}

fn span(word: &[u8]) -> Option<Span> {
    let plus = word.iter().position(|&byte| byte == b'+')?;
    let part = |text| decimal(text, u32::from(u16::MAX)).map(|value| value as u16);
    Some(Span {
        start: part(&word[..plus])?,
        length: part(&word[plus + 1..])?,
    })
}

fn byte_number(word: &[u8]) -> Option<u8> {
    decimal(word, u32::from(u8::MAX)).map(|value| value as u8)
}

/// One or more decimal digits, with any number of leading zeros.
fn decimal(word: &[u8], most: u32) -> Option<u32> {
    if word.is_empty() {
        return None;
    }
    let mut value: u32 = 0;
    for character in word {
        let digit = character.is_ascii_digit().then(|| character - b'0')?;
        // Nothing in a house is so large that its digits would overflow.
        value = value.checked_mul(10)?.checked_add(u32::from(digit))?;
    }
    (value <= most).then_some(value)
}

/// Exactly so many upper-case digits, at most four.
fn hexadecimal(word: &[u8], digits: usize) -> Option<u16> {
    if word.len() != digits {
        return None;
    }
    word.iter().try_fold(0, |value, &character| {
        let digit = match character {
            b'0'..=b'9' => character - b'0',
            b'A'..=b'F' => character - b'A' + 10,
            _ => return None,
        };
        Some(value << 4 | u16::from(digit))
    })
}

#[cfg(test)]
#[path = "reading_tests.rs"]
mod tests;
