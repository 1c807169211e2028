//! Texts of coordinates with what packing them gives (SPEC 9.7), worked out by hand.

use crate::pins::Pin;
use crate::plane::Point;

/// The pins of a text by x, y and kind, lower first, or the line on its fault.
type Right = Result<&'static [(i64, i64, u32)], &'static str>;

/// Texts that are taken.
const TAKEN: [(&str, &[(i64, i64, u32)]); 34] = [
    ("", &[]),
    ("\n", &[]),
    ("\r\n", &[]),
    ("\r", &[]),
    (" \t \n", &[]),
    ("\t\r\n\n  ", &[]),
    ("#", &[]),
    ("# 1 2\n#\n", &[]),
    ("#\x0c\r\0\r\n1 2\n", &[(1, 2, 0)]),
    ("1 2", &[(1, 2, 0)]),
    ("1 2\n", &[(1, 2, 0)]),
    ("1 2\n\n", &[(1, 2, 0)]),
    ("1 2\r\n", &[(1, 2, 0)]),
    ("1 2\r", &[(1, 2, 0)]),
    ("1 2 \t\r\n", &[(1, 2, 0)]),
    ("  1   2  ", &[(1, 2, 0)]),
    ("\t1\t \t2\t1\t\n", &[(1, 2, 1)]),
    ("1 2 0\n", &[(1, 2, 0)]),
    ("1 2 1\n", &[(1, 2, 1)]),
    ("1 2 2", &[(1, 2, 2)]),
    ("1 2 -0\n", &[(1, 2, 0)]),
    ("-0 00", &[(0, 0, 0)]),
    ("001 -0002 01\n", &[(1, -2, 1)]),
    ("3 4\n1 2\n", &[(1, 2, 0), (3, 4, 0)]),
    ("1 4 2\n1 2 1\n", &[(1, 2, 1), (1, 4, 2)]),
    ("2 1\n1 9\n", &[(1, 9, 0), (2, 1, 0)]),
    (
        "2 0\r\n1 0\n\r\n0 0 1\r",
        &[(0, 0, 1), (1, 0, 0), (2, 0, 0)],
    ),
    ("5 5\n# 5 5\n 6 5", &[(5, 5, 0), (6, 5, 0)]),
    ("30000 -30000\n", &[(30_000, -30_000, 0)]),
    ("-30000 30000 2\n", &[(-30_000, 30_000, 2)]),
    (
        "0 0\n0 1\n1 0\n1 1\n",
        &[(0, 0, 0), (0, 1, 0), (1, 0, 0), (1, 1, 0)],
    ),
    ("0 0 2\n0 1\n", &[(0, 0, 2), (0, 1, 0)]),
    ("0 0\n0 1 1\n", &[(0, 0, 0), (0, 1, 1)]),
    ("10 0\n5 8\n0 0\n", &[(0, 0, 0), (5, 8, 0), (10, 0, 0)]),
];

/// Lines that are no pin, whatever lines stand before them.
pub const ERRORS: [&[u8]; 47] = [
    b"x",
    b"1",
    b"1 ",
    b"\t-1",
    b"1 2 0 0",
    b"1 2 0 x",
    b"1 2 # x",
    b" # x",
    b"\t#",
    b"x 2",
    b"1 y",
    b"1 2 z",
    b"+1 2",
    b"1 +2",
    b"1 2 +1",
    b"1 2 -1",
    b"1 2 -2147483648",
    b"- 1",
    b"1 -",
    b"1 2 -",
    b"--1 2",
    b"1- 2",
    b"1.0 2",
    b"1,2",
    b"1, 2",
    b"1_0 2",
    b"0x1 2",
    b"1e1 2",
    b"2147483648 0",
    b"0 -2147483649",
    b"0 0 2147483648",
    b"0 4294967296",
    b"18446744073709551616 0",
    b"1 2\r\r",
    b"\r\r",
    b"\r 1 2",
    b"1\r2",
    b"1 2\r ",
    b"\x0c",
    b"1\x0c2",
    b"1 2\x0c",
    b"1 2 \x0c",
    b"\x0b1 2",
    b"1 2\0",
    b"\0",
    b"\xef\xbb\xbf1 2",
    b"1 2 \xff",
];

/// Texts with a refused pin, or with several faults.
const FAULTS: [(&str, &str); 36] = [
    ("30001 0\n", "line 1: refused 7"),
    ("0 30001\n", "line 1: refused 7"),
    ("-30001 0\n", "line 1: refused 7"),
    ("0 -30001", "line 1: refused 7"),
    ("32768 0", "line 1: refused 7"),
    ("65536 65536", "line 1: refused 7"),
    ("2147483647 0", "line 1: refused 7"),
    ("0 -2147483648", "line 1: refused 7"),
    ("0 0 3\n", "line 1: refused 15"),
    ("0 0 256", "line 1: refused 15"),
    ("0 0 65536", "line 1: refused 15"),
    ("0 0 2147483647", "line 1: refused 15"),
    ("30001 0 3\n", "line 1: refused 7"),
    ("30001 0 -1\n", "line 1: error"),
    ("0 0\n0 0\n", "line 2: refused 8"),
    ("0 0\n0 0 1", "line 2: refused 8"),
    ("0 0 1\n-0 00 1", "line 2: refused 8"),
    ("0 0\n0 0 3\n", "line 2: refused 15"),
    ("0 0\n1 0\n2 0\n1 0\n0 0\n", "line 4: refused 8"),
    ("0 0\n0 0 x\n", "line 2: error"),
    ("# a\n\n \n0 0\n0 0\n", "line 5: refused 8"),
    ("\n\n\nx", "line 4: error"),
    ("\r\n\r\nx\r\n", "line 3: error"),
    ("0 0\r\n1 1\r\n0 0\r\n", "line 3: refused 8"),
    ("#\n#\n#\n30001 0", "line 4: refused 7"),
    ("# x\n x\n# y\n", "line 2: error"),
    ("x\n30001 0\n", "line 1: error"),
    ("30001 0\nx\n", "line 1: refused 7"),
    ("0 0\n30001 0\n0 0\nx\n0 0 3\n", "line 2: refused 7"),
    ("0 0\nx\nx\n", "line 2: error"),
    ("1 2\rx 4\n", "line 1: error"),
    ("0 0 1\n1 0 3\n", "line 2: refused 15"),
    ("1 1\n\x0c\n", "line 2: error"),
    ("1 1\n\r\r\n", "line 2: error"),
    ("1 1\n\r\r", "line 2: error"),
    ("1 1\n2 2\r\r", "line 2: error"),
];

/// A text with its pins, lower first, or with the line on its fault.
pub type Row = (Vec<u8>, Result<Vec<Pin>, String>);

/// Pins by x, y and kind.
fn pins(triples: &[(i64, i64, u32)]) -> Vec<Pin> {
    let pin = |&(x, y, kind): &(i64, i64, u32)| Pin::new(Point::new(x, y), kind);
    triples.iter().map(pin).collect()
}

fn row(text: Vec<u8>, right: Right) -> Row {
    let fault = |line: &str| format!("{line}\n");
    (text, right.map(pins).map_err(fault))
}

/// All rows: the texts above, each error as a first line and as a third one, full
/// decks, and long lines.
pub fn rows() -> Vec<Row> {
    let mut rows: Vec<Row> = Vec::new();
    rows.extend(TAKEN.map(|(text, pins)| row(text.into(), Ok(pins))));
    rows.extend(FAULTS.map(|(text, line)| row(text.into(), Err(line))));
    for line in ERRORS {
        rows.push(row([line, b"\n7 7\n"].concat(), Err("line 1: error")));
        rows.push(row([b"7 7\n#\n", line].concat(), Err("line 3: error")));
    }
    rows.extend(full_rows());
    rows.extend(long_rows());
    rows
}

/// Sixty-four pins, the highest first, and lines behind them.
fn full_rows() -> Vec<Row> {
    let lines: String = (0..64).rev().map(|x| format!("{x} 0\n")).collect();
    let all = (0..64).map(|x| Pin::new(Point::new(x, 0), 0)).collect();
    let more = |last: &str| (lines.clone() + last).into_bytes();
    vec![
        (more(""), Ok(all)),
        row(more("64 0"), Err("line 65: refused 10")),
        row(more("#\n-1 0 2\n"), Err("line 66: refused 10")),
        row(more("63 0\n"), Err("line 65: refused 8")),
        row(more("64 0 3\n"), Err("line 65: refused 15")),
        row(more("30001 0\n"), Err("line 65: refused 7")),
        row(more("64\n"), Err("line 65: error")),
    ]
}

/// Lines of 4,000 bytes, which are taken, and of 4,001, which are not: zeros in
/// front, spaces behind or around, a carriage return, and comments of any length.
fn long_rows() -> Vec<Row> {
    let zeros = |count: usize| [&vec![b'0'; count - 3][..], b"1 2"].concat();
    let spaces = |count: usize| [&b"1 2"[..], &vec![b' '; count - 3]].concat();
    let (one, error) = (Ok(&[(1, 2, 0)][..]), Err("line 1: error"));
    let mut rows = Vec::new();
    for line in [zeros, spaces] {
        for end in ["", "\n"] {
            let of = |count: usize, end: &str| [&line(count)[..], end.as_bytes()].concat();
            rows.push(row(of(4_000, end), one));
            rows.push(row(of(4_001, end), error));
            rows.push(row(of(3_999, &format!("\r{end}")), one));
            rows.push(row(of(4_000, &format!("\r{end}")), error));
        }
    }
    for (count, right) in [(4_000, Ok(&[][..])), (4_001, error), (9_000, error)] {
        rows.push(row(vec![b' '; count], right));
        rows.push(row([&vec![b'\t'; count][..], b"\n"].concat(), right));
    }
    for count in [3_999, 4_000, 4_001, 9_000] {
        let comment = [b"#", &vec![b'x'; count - 1][..], b"\n"].concat();
        rows.push(row([&comment[..], b"1 2"].concat(), one));
        rows.push(row([&comment[..], b"x"].concat(), Err("line 2: error")));
    }
    rows.push(row(
        [b"1 2\n", &zeros(4_001)[..]].concat(),
        Err("line 2: error"),
    ));
    rows
}
