//! Test cases for the lines that `decode` reads: "The program `decode`" in
//! docs/PROTOCOL.md.

use super::Cases;

/// More than any telegram has, and more digits than one page of memory holds.
const MANY_PAIRS: usize = 2100;

/// Lines that are told apart for the same reason.
struct Group {
    note: &'static str,
    lines: &'static [&'static [u8]],
}

const SPELLINGS: Group = Group {
    note: "telegrams: lower case, mixed case, no spaces, many spaces, spaces around",
    lines: &[
        b"10 7b fd 78 16",
        b"10 7b Fd 78 16",
        b"10 7B fD 78 16",
        b"107BFD7816",
        b"107bfd7816",
        b"10abcd7816",
        b"10efbaa916",
        b"10dcfeda16",
        b"10 7BFD 7816",
        b"107BFD 78  16",
        b"10    7B  FD          78   16",
        b" 10 7B FD 78 16",
        b"10 7B FD 78 16 ",
        b"      10 7B FD 78 16      ",
        b" E5 ",
        b"e5",
        b"eE",
        b"68151568080572785634122d2c0104070000000c06271500004616",
    ],
};

const SKIPPED: Group = Group {
    note: "skipped, but counted as lines: blank, spaces, and # as the first byte",
    lines: &[
        b"",
        b" ",
        b"        ",
        b"#",
        b"##",
        b"#E5",
        b"# E5",
        b"#-",
        b"#\t\x00\xFF",
        b"#\r",
        b"#\rE5",
        b"",
        b"",
    ],
};

const LATE_COMMENTS: Group = Group {
    note: "unreadable: # after the first byte",
    lines: &[
        b" #",
        b" # E5",
        b"E5#",
        b"E5 #",
        b"E5 # comment",
        b"-#",
        b"- #",
    ],
};

const DASHES: Group = Group {
    note: "dashes: the first line is a telegram, all others are unreadable",
    lines: &[
        b"-",
        b"--",
        b"---",
        b" -",
        b"- ",
        b" - ",
        b"- -",
        b"-E5",
        b"E5-",
        b"- E5",
        b"E5 -",
        b"10-7B-FD-78-16",
        b"\xE2\x80\x93",
        b"_",
    ],
};

const BROKEN_PAIRS: Group = Group {
    note: "unreadable: an odd number of digits, a space inside a pair",
    lines: &[
        b"1",
        b"E",
        b"E 5",
        b"E5 1",
        b"E51",
        b"1 E5",
        b"1E5",
        b"E5 E5 E",
        b"107BFD781",
        b"10 7B FD 78 1",
        b"0 7B FD 78 16",
        b"10 7 B FD 78 16",
        b"1 07 B",
        b"10 7BF D 78 16",
        b"10 7BF D7816",
        b"107 BFD 7816",
        b"1 0 7 B F D 7 8 1 6",
        b" E",
        b"E ",
        b" E 5 ",
    ],
};

const STRAY_CHARACTERS: Group = Group {
    note: "unreadable: stray characters, tabs, and bytes beyond ASCII and UTF-8",
    lines: &[
        b"?",
        b"hello",
        b"0x10 0x7B 0xFD 0x78 0x16",
        b"0xE5",
        b"10h",
        b"10,7B,FD,78,16",
        b"10:7B:FD:78:16",
        b"+5",
        b"E5;",
        b"\"E5\"",
        b"10 7B FD 78 1G",
        b"G0 7B FD 78 16",
        b"10 7B FO 78 16",
        b"\t",
        b"\tE5",
        b"E5\t",
        b"10\t7B\tFD\t78\t16",
        b" \t ",
        b"E5\x00",
        b"\x00",
        b"\x00E5",
        b"E5\x0B",
        b"E5\x0C",
        b"E5\x1A",
        b"E5\x7F",
        b"\xE5",
        b"\x10\x7B\xFD\x78\x16",
        b"E5\xC2\xA0",
        b"\xEF\xBB\xBFE5",
        b"\xEF\xBC\x91\xEF\xBC\x90",
        b"10 \xC3\xA9\xC3\xA9",
        b"E5 \xFF",
        b"\xFF\xFE",
        b"E5\xC3",
        b"\x80E5",
        b"E5\x85",
    ],
};

const LAST_CARRIAGE_RETURNS: Group = Group {
    note: "a carriage return at the very end: six telegrams, then skipped lines",
    lines: &[
        b"E5\r",
        b"E5 \r",
        b" E5  \r",
        b"10 7B FD 78 16\r",
        b"107bfd7916\r",
        b"-\r",
        b"\r",
        b"  \r",
    ],
};

const STRAY_CARRIAGE_RETURNS: Group = Group {
    note: "unreadable: carriage returns elsewhere, two of them, one after a bad line",
    lines: &[
        b"E5\r ",
        b"E5\r\r",
        b"\rE5",
        b"\rE5\r",
        b"10\r7B",
        b"10 7B\rFD 78 16",
        b"10 7B FD\r 78 16\r",
        b"1\r0",
        b"E\r",
        b"E\r5",
        b"\r\r",
        b" \r ",
        b"\r ",
        b"-\r\r",
        b"-\r ",
        b"- \r",
        b" -\r",
        b"\r-",
        b"--\r",
        b"\r#",
        b" #\r",
    ],
};

pub fn add(cases: &mut Cases) {
    for group in [
        SPELLINGS,
        SKIPPED,
        LATE_COMMENTS,
        DASHES,
        BROKEN_PAIRS,
        STRAY_CHARACTERS,
        LAST_CARRIAGE_RETURNS,
        STRAY_CARRIAGE_RETURNS,
    ] {
        cases.note(group.note);
        for line in group.lines {
            cases.line(line);
        }
    }
    add_long_lines(cases);
    add_every_character(cases);
    cases.note("the last line has no 0A at its end");
    cases.line("10 7B FD 78 16");
}

fn add_long_lines(cases: &mut Cases) {
    let zeros = "00".repeat(MANY_PAIRS);
    let spaces = " ".repeat(MANY_PAIRS);
    cases.note("thousands of digits: four telegrams, then three unreadable at the far end");
    cases.line(&zeros);
    cases.line(format!("E5{zeros}"));
    cases.line(format!("107BFD7816{zeros}"));
    cases.line(format!("68FFFF68{zeros}"));
    cases.line(format!("{zeros}0"));
    cases.line(format!("{zeros}0G"));
    cases.line(format!("{zeros} -"));
    cases.note("thousands of spaces: alone, before, inside and after a frame, two unreadable");
    cases.line(&spaces);
    cases.line(format!("{spaces}10 7B FD 78 16"));
    cases.line(format!("10 7B{spaces}FD 78 16"));
    cases.line(format!("10 7B FD 78 16{spaces}"));
    cases.line(format!("10 7B FD 78 16{spaces}\r"));
    cases.line(format!("1{spaces}0"));
    cases.line(format!("{spaces}-"));
    cases.note("skipped: # before thousands of digits");
    cases.line(format!("#{zeros}"));
}

fn add_every_character(cases: &mut Cases) {
    cases.note("every character but 0A as the second of a pair");
    for character in every_character_but_newline() {
        cases.line([b'E', character]);
    }
    cases.note("every character but 0A as the first of a pair");
    for character in every_character_but_newline() {
        cases.line([character, b'5']);
    }
}

fn every_character_but_newline() -> impl Iterator<Item = u8> {
    (0x00..=0xFF).filter(|&character| character != b'\n')
}
