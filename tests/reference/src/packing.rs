//! Packing (SPEC 9.7): a text of coordinates, one pin a line, to a plain file.

use crate::file::write_plain;
use crate::pins::{Pin, SENSOR};
use crate::plane::Point;
use crate::script::{number, reply_line, LONGEST_LINE};
use crate::session::{add, Reply, State};

/// What a line of a text is.
#[derive(Clone, Copy, Debug, PartialEq, Eq)]
pub enum Line {
    /// A comment, or no word at all.
    PassedOver,
    Pin(Pin),
    Error,
}

/// The plain file of the pins of a text, or the line that names the first fault.
pub fn pack(text: &[u8]) -> Result<Vec<u8>, String> {
    let mut state = State::default();
    for (place, line) in text.split(|&byte| byte == b'\n').enumerate() {
        let fault = match line_of(line) {
            Line::PassedOver => continue,
            Line::Error => "error".to_string(),
            Line::Pin(pin) => match add(&state, pin) {
                (next, Reply::Done) => {
                    state = next;
                    continue;
                }
                (_, reply) => reply_line(reply),
            },
        };
        return Err(format!("line {}: {fault}\n", place + 1));
    }
    Ok(write_plain(&state.pins))
}

/// What a line is, without its line feed.
pub fn line_of(line: &[u8]) -> Line {
    if line.first() == Some(&b'#') {
        return Line::PassedOver;
    }
    if line.len() > LONGEST_LINE {
        return Line::Error;
    }
    let line = line.strip_suffix(b"\r").unwrap_or(line);
    if line.contains(&b'\r') || line.contains(&12) {
        return Line::Error;
    }
    let words: Vec<&[u8]> = line
        .split(|&byte| byte == b' ' || byte == b'\t')
        .filter(|word| !word.is_empty())
        .collect();
    if words.is_empty() {
        return Line::PassedOver;
    }
    pin_of(&words).map_or(Line::Error, Line::Pin)
}

/// The pin that the words name: a sensor where they name no kind.
fn pin_of(words: &[&[u8]]) -> Option<Pin> {
    let word = |word: &[u8]| number(std::str::from_utf8(word).ok()?);
    let (x, y, kind) = match words {
        [x, y] => (word(x)?, word(y)?, SENSOR),
        [x, y, kind] => (word(x)?, word(y)?, u32::try_from(word(kind)?).ok()?),
        _ => return None,
    };
    Some(Pin::new(Point::new(x, y), kind))
}
