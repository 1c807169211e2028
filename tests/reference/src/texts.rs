//! Texts of coordinates for tests, drawn at random: pins in any order, lines passed
//! over, and faults of every sort (SPEC 9.7).

use crate::devices::{devices, NO_KINDS};
use crate::generate::{most_pins, pins, Random, KINDS};
use crate::pins::{Pin, DISPLAY, SENSOR};
use crate::plane::{Point, LIMIT};
use crate::text_rows::ERRORS;

/// Coordinates that are out of range.
const TOO_FAR: [i64; 8] = [
    LIMIT + 1,
    -LIMIT - 1,
    32_768,
    -32_769,
    65_536,
    1 << 20,
    i32::MAX as i64,
    i32::MIN as i64,
];

/// How the lines of a text end.
#[derive(Clone, Copy)]
enum Ends {
    Feeds,
    Returns,
    Both,
}

/// Some spaces and tabs, one at least.
fn gap(random: &mut Random) -> String {
    match random.range(0, 5) {
        0 => "\t".to_string(),
        1 => "  ".to_string(),
        2 => " \t ".to_string(),
        _ => " ".to_string(),
    }
}

/// A number as it may be written: sometimes with zeros in front, and 0 with a sign.
fn written(random: &mut Random, number: i64) -> String {
    let zeros = if random.once_in(10) {
        random.range(1, 12)
    } else {
        0
    };
    let sign = if number < 0 || number == 0 && random.once_in(8) {
        "-"
    } else {
        ""
    };
    format!("{sign}{}{}", "0".repeat(zeros as usize), number.abs())
}

/// The line of a pin, without its end. A sensor is named once in three.
pub fn pin_line(random: &mut Random, pin: Pin) -> Vec<u8> {
    let mut line = String::new();
    if random.once_in(6) {
        line += &gap(random);
    }
    line += &written(random, pin.point.x);
    line += &gap(random);
    line += &written(random, pin.point.y);
    if pin.kind != SENSOR || random.once_in(3) {
        line += &gap(random);
        line += &written(random, pin.kind.into());
    }
    if random.once_in(6) {
        line += &gap(random);
    }
    line.into_bytes()
}

/// Any bytes that end no line.
fn any_line(random: &mut Random, length: usize) -> Vec<u8> {
    let byte = |byte: u8| if byte == b'\n' { b' ' } else { byte };
    (0..length).map(|_| byte(random.draw() as u8)).collect()
}

/// A length of a line: short, about 4,000 bytes, or longer.
fn length(random: &mut Random) -> usize {
    match random.range(0, 11) {
        0 => random.range(3_998, 4_002) as usize,
        1 => random.range(4_003, 9_000) as usize,
        2 => random.range(300, 3_000) as usize,
        _ => random.range(0, 30) as usize,
    }
}

/// A line that is passed over: a comment of any bytes, spaces, or nothing.
pub fn passed_over(random: &mut Random) -> Vec<u8> {
    let length = length(random);
    match random.range(0, 3) {
        0 => Vec::new(),
        1 => vec![random.pick(b" \t"); length.min(4_000 - 1)],
        _ => [b"#", &any_line(random, length)[..]].concat(),
    }
}

/// The pin's line with zeros or spaces in it so that it has this length.
fn stretched(random: &mut Random, pin: Pin, length: usize) -> Vec<u8> {
    let (x, y, kind) = (pin.point.x, pin.point.y, pin.kind);
    let (sign, rest) = (
        if x < 0 { "-" } else { "" },
        format!("{} {y} {kind}", x.abs()),
    );
    let more = length - sign.len() - rest.len();
    match random.range(0, 2) {
        0 => format!("{sign}{}{rest}", "0".repeat(more)),
        1 => format!("{sign}{rest}{}", " ".repeat(more)),
        _ => format!("{}{sign}{rest}", "\t".repeat(more)),
    }
    .into_bytes()
}

/// A line that is likely a fault behind the pins given.
fn fault(random: &mut Random, pins: &[Pin]) -> Vec<u8> {
    let near = Point::new(random.range(-9, 9), random.range(-9, 9));
    let kind = random.pick(&[SENSOR, DISPLAY, 3, 256]);
    match random.range(0, 11) {
        0 => {
            let far = Point::new(random.pick(&TOO_FAR), near.y);
            pin_line(random, Pin::new(far, kind))
        }
        1 => {
            let far = Point::new(near.x, random.pick(&TOO_FAR));
            pin_line(random, Pin::new(far, kind))
        }
        2 => {
            let kind = random.pick(&NO_KINDS);
            pin_line(random, Pin::new(near, kind))
        }
        3 | 4 if !pins.is_empty() => {
            let again = random.pick(pins).point;
            pin_line(random, Pin::new(again, kind))
        }
        5 => {
            let length = random.range(3_999, 4_002) as usize;
            stretched(random, Pin::new(near, SENSOR), length)
        }
        6 => {
            let length = length(random).max(1);
            any_line(random, length)
        }
        7 => vec![random.pick(b" \t"); random.range(3_999, 4_002) as usize],
        _ => random.pick(&ERRORS).to_vec(),
    }
}

/// Lines as a text, with or without an end of the last one.
fn joined(random: &mut Random, lines: &[Vec<u8>], ends: Ends) -> Vec<u8> {
    let mut text = Vec::new();
    for line in lines {
        text.extend(line);
        match ends {
            Ends::Returns => text.extend(b"\r\n"),
            Ends::Both if random.once_in(2) => text.extend(b"\r\n"),
            _ => text.push(b'\n'),
        }
    }
    if random.once_in(3) {
        text.pop();
    }
    text
}

/// The pins of a text in any order: most often a few, once in nine 62 and more,
/// of which some make too many.
fn some_pins(random: &mut Random) -> Vec<Pin> {
    let kind = random.pick(&KINDS);
    let points = if random.once_in(9) {
        let mut points = most_pins(random);
        for i in 0..random.range(0, 3) {
            points.push(Point::new(1, i));
        }
        points[random.range(0, 2) as usize..].to_vec()
    } else {
        let most = random.range(0, 12) as usize;
        pins(random, kind, most)
    };
    let pins = devices(random, &points);
    random.shuffled(&pins)
}

/// A text: pins, lines passed over among them, and in every second text faults.
pub fn text(random: &mut Random) -> Vec<u8> {
    let pins = some_pins(random);
    let mut lines: Vec<Vec<u8>> = pins.iter().map(|&pin| pin_line(random, pin)).collect();
    let mut put = |random: &mut Random, line: Vec<u8>| {
        let first = random.pick(&[0, lines.len() as i64 / 2, lines.len() as i64]);
        let place = random.range(first, lines.len() as i64) as usize;
        lines.insert(place, line);
    };
    for _ in 0..random.pick(&[0, 0, 1, 2, 5]) {
        let line = passed_over(random);
        put(random, line);
    }
    for _ in 0..random.pick(&[0, 0, 0, 1, 1, 3]) {
        let line = fault(random, &pins);
        put(random, line);
    }
    let ends = random.pick(&[Ends::Feeds, Ends::Returns, Ends::Both]);
    joined(random, &lines, ends)
}

/// The same pins in two texts, in other orders, with other lines passed over among
/// them and other ends of lines.
pub fn two_orders(random: &mut Random) -> [Vec<u8>; 2] {
    let mut pins = some_pins(random);
    pins.truncate(64);
    [Ends::Feeds, Ends::Both].map(|ends| {
        let mut lines = vec![passed_over(random)];
        for pin in random.shuffled(&pins) {
            lines.push(pin_line(random, pin));
        }
        lines.push(passed_over(random));
        joined(random, &lines, ends)
    })
}

/// A text that has a line feed at this place, counted from 0, behind a pin and in
/// front of one, and so many pins behind.
pub fn with_feed_at(random: &mut Random, place: usize, behind: i64) -> Vec<u8> {
    let mut text = Vec::new();
    while place - text.len() > 4_001 {
        text.extend(vec![
            random.pick(b"# ");
            random.range(1_000, 3_000) as usize
        ]);
        text.push(b'\n');
    }
    let first = Pin::new(Point::new(-7, 8), 1);
    let left = place - text.len();
    text.extend(stretched(random, first, left));
    text.push(b'\n');
    for x in 0..behind {
        let pin = Pin::new(Point::new(x, -x), SENSOR);
        text.extend(pin_line(random, pin));
        text.extend(random.pick(&[&b"\n"[..], b"\r\n"]));
    }
    text
}
