//! Lines of a test house, readable and not.

use super::*;

fn read(text: &str) -> Option<HouseLine> {
    read_line(text.as_bytes())
}

#[test]
fn blank_and_comment_lines_are_skipped() {
    for text in ["", " ", "   ", "\r", "  \r", "#", "#\r", "# s", "#\r x"] {
        assert_eq!(read(text), Some(HouseLine::Skipped), "{text:?}");
    }
}

#[test]
fn spaces_and_a_last_carriage_return_do_not_matter() {
    let search = Some(HouseLine::Call(Call::Search));
    for text in ["s", "s ", "s   ", "s\r", "s  \r"] {
        assert_eq!(read(text), search, "{text:?}");
    }
    for text in [" s", "s\r\r", "s\r ", "\rs", "s\t", "S", "s s", "ss", "s 1"] {
        assert_eq!(read(text), None, "{text:?}");
    }
}

#[test]
fn areas() {
    let area = |bytes: &[u8]| Some(HouseLine::Area(bytes.to_vec()));
    assert_eq!(read("area 0a"), area(&[0x0A]));
    assert_eq!(read("area   0aBC  D0 \r"), area(&[0x0A, 0xBC, 0xD0]));
    for text in [
        "area",
        "area ",
        "area 0",
        "area 0 A",
        "area 0A1 B",
        "area0A",
        "area -",
    ] {
        assert_eq!(read(text), None, "{text:?}");
    }
}

#[test]
fn meters() {
    let address = MeterAddress {
        number: 1234,
        maker: 0x2CFF,
        version: 0xA1,
        medium: 0x04,
    };
    let row = |bodies: &[(u16, u16)]| {
        let span = |&(start, length)| Span { start, length };
        Some(HouseLine::Meter(Row {
            address,
            primary: 0xFE,
            bodies: bodies.iter().map(span).collect(),
        }))
    };
    assert_eq!(read("meter 00001234 2CFF A1 04 FE"), row(&[]));
    assert_eq!(
        read("meter  00001234 2CFF A1  04 FE 0+0 65535+0065535  "),
        row(&[(0, 0), (65_535, 65_535)])
    );
    let pick = Some(HouseLine::Call(Call::Pick(address)));
    assert_eq!(read("p 00001234 2CFF A1 04"), pick);
}

#[test]
fn bad_addresses() {
    for text in [
        "0001234 2CFF A1 04",
        "000001234 2CFF A1 04",
        "0000123A 2CFF A1 04",
        "00001234 2cff A1 04",
        "00001234 2CF A1 04",
        "00001234 02CFF A1 04",
        "00001234 2CFF a1 04",
        "00001234 2CFF A 04",
        "00001234 2CFF A1 4",
        "00001234 2CFF A1",
        "",
    ] {
        assert_eq!(read(&format!("p {text}")), None, "{text:?}");
        assert_eq!(read(&format!("meter {text} FE 0+0")), None, "{text:?}");
    }
    assert_eq!(read("p 00001234 2CFF A1 04 FE"), None);
    assert_eq!(read("meter 00001234 2CFF A1 04"), None);
    assert_eq!(read("meter 00001234 2CFF A1 04 fe"), None);
}

#[test]
fn bad_bodies() {
    for text in [
        "65536+0",
        "0+65536",
        "+0",
        "0+",
        "+",
        "0",
        "0+0+0",
        "0-0",
        "-0+0",
        "0 + 0",
        "0++0",
        "0x0+0",
        "0+A",
        "99999999999999999999+0",
    ] {
        let line = format!("meter 00001234 2CFF A1 04 FE 0+0 {text}");
        assert_eq!(read(&line), None, "{text:?}");
    }
}

#[test]
fn decimal_numbers() {
    let zeros = "0".repeat(5000);
    let fault = |codes: &[u8]| Some(HouseLine::Fault(codes.to_vec()));
    assert_eq!(read(&format!("fault {zeros}255 00 7")), fault(&[255, 0, 7]));
    assert_eq!(read("retry 0255"), Some(HouseLine::Retry(255)));
    assert_eq!(read("places 000"), Some(HouseLine::Places(0)));
    assert_eq!(read("places 250"), Some(HouseLine::Places(250)));
    for text in [
        "fault",
        "fault 256",
        "fault 0 -1",
        "fault +1",
        "fault 1,2",
        "fault A",
        "retry",
        "retry 256",
        "retry 1 1",
        "retry 1.",
        "places",
        "places 251",
        "places 1 1",
        "fault 4294967296",
        "fault 18446744073709551616",
        "Fault 1",
        "faults 1",
    ] {
        assert_eq!(read(text), None, "{text:?}");
    }
}
