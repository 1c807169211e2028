//! Packing once more (SPEC 9.7), with each rule by itself, so that a test can change
//! one of them.

use crate::file::write_plain;
use crate::pins::Pin;
use crate::plane::Point;

/// The rules of packing, each to be changed by itself.
pub struct Rules {
    /// The text as it is read.
    pub read: fn(&[u8]) -> Vec<u8>,
    /// The number of the first line, and which lines have none.
    pub first: usize,
    pub uncounted: fn(&[u8]) -> bool,
    pub is_comment: fn(&[u8]) -> bool,
    pub is_too_long: fn(&[u8]) -> bool,
    /// The line without its end, and what may not stand in it then.
    pub cut: fn(&[u8]) -> &[u8],
    pub barred: &'static [u8],
    /// What parts words.
    pub white: &'static [u8],
    pub number: fn(&str) -> Option<i64>,
    /// The kind of the words behind the coordinates.
    pub kind: fn(&[Option<i64>]) -> Option<u32>,
    /// The numbers that refuse a pin, in the order of the checks, and the most pins.
    pub checks: &'static [u8],
    pub most: usize,
    /// How a pin joins those of the lines before, and the file of all in that order.
    pub put: fn(&mut Vec<Pin>, Pin),
    pub write: fn(Vec<Pin>) -> Vec<u8>,
    /// What is left of the faults in the order of the lines.
    pub fault: fn(&[String], Vec<u8>) -> Result<Vec<u8>, String>,
}

/// The right rules.
pub const RIGHT: Rules = Rules {
    read: |text| text.to_vec(),
    first: 1,
    uncounted: |_| false,
    is_comment: |line| line.starts_with(b"#"),
    is_too_long: |line| line.len() > 4_000,
    cut: |line| line.strip_suffix(b"\r").unwrap_or(line),
    barred: b"\r\x0c",
    white: b" \t",
    number: |word| whole(word).and_then(|n| i32::try_from(n).ok().map(i64::from)),
    kind: |words| match words {
        [] => Some(0),
        [Some(kind @ 0..)] => Some(*kind as u32),
        _ => None,
    },
    checks: &[7, 15, 8, 10],
    most: 64,
    put: Vec::push,
    write: |pins| write_plain(&sorted(pins)),
    fault: |faults, file| faults.first().cloned().map_or(Ok(file), Err),
};

/// A number of 64 bits without a `+`.
pub fn whole(word: &str) -> Option<i64> {
    let digits = word.strip_prefix('-').unwrap_or(word);
    let right = !digits.is_empty() && digits.bytes().all(|byte| byte.is_ascii_digit());
    word.parse().ok().filter(|_| right)
}

/// The pins, lower first.
pub fn sorted(mut pins: Vec<Pin>) -> Vec<Pin> {
    pins.sort_by_key(|pin| (pin.point.x, pin.point.y));
    pins
}

/// The number by which a pin is refused behind others, if it is.
fn refusal_by(rules: &Rules, pins: &[Pin], pin: Pin) -> Option<u8> {
    let fails = |number: &u8| match number {
        7 => pin.point.x.abs() > 30_000 || pin.point.y.abs() > 30_000,
        15 => pin.kind > 2,
        8 => pins.iter().any(|other| other.point == pin.point),
        _ => pins.len() >= rules.most,
    };
    rules.checks.iter().copied().find(fails)
}

/// Packs a text by some rules.
pub fn pack_by(rules: &Rules, text: &[u8]) -> Result<Vec<u8>, String> {
    let text = (rules.read)(text);
    let (mut pins, mut faults) = (Vec::new(), Vec::new());
    let mut number = rules.first;
    for line in text.split(|&byte| byte == b'\n') {
        match pin_by(rules, line) {
            Some(Some(pin)) => match refusal_by(rules, &pins, pin) {
                Some(refusal) => faults.push(format!("line {number}: refused {refusal}\n")),
                None => (rules.put)(&mut pins, pin),
            },
            Some(None) => faults.push(format!("line {number}: error\n")),
            None => {}
        }
        number += usize::from(!(rules.uncounted)(line));
    }
    (rules.fault)(&faults, (rules.write)(pins))
}

/// The pin of a line, if it is one, and nothing for a line passed over.
fn pin_by(rules: &Rules, line: &[u8]) -> Option<Option<Pin>> {
    if (rules.is_comment)(line) {
        return None;
    }
    let cut = (rules.cut)(line);
    if (rules.is_too_long)(line) || cut.iter().any(|byte| rules.barred.contains(byte)) {
        return Some(None);
    }
    let words = cut.split(|byte| rules.white.contains(byte));
    let words: Vec<Option<i64>> = words
        .filter(|word| !word.is_empty())
        .map(|word| (rules.number)(std::str::from_utf8(word).ok()?))
        .collect();
    match words[..] {
        [] => None,
        [Some(x), Some(y), ref rest @ ..] => {
            Some((rules.kind)(rest).map(|kind| Pin::new(Point::new(x, y), kind)))
        }
        _ => Some(None),
    }
}
