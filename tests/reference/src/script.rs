//! Scripts of calls: one call a line, one answer line for each
//! (SPEC 9.3). They carry the same calls to several planners.

use crate::arrows::{arrow, glyph, Sight};
use crate::file::{read, write_into, LONGEST};
use crate::listing::listing;
use crate::pins::SENSOR;
use crate::plane::{octant, Point};
use crate::session::{call, column, counts, degree_at, edge_at, kind_lengths, length};
use crate::session::{Call, Reply, State};

/// The longest line of a script, without its line feed.
pub const LONGEST_LINE: usize = 4_000;

/// The answers to a script, a line feed after each, from the empty deck. The
/// bytes after the last line feed are a line too, if there are any.
pub fn play(script: &[u8]) -> String {
    let mut state = State::default();
    let mut answers = String::new();
    for line in script.split(|&byte| byte == b'\n') {
        if let Some(answer) = answer_line(&mut state, line) {
            answers += &answer;
            answers += "\n";
        }
    }
    answers
}

/// The answer to one line, or none for an empty line or a comment. A line too
/// long, a word that is no call and a number of more than 32 bits are errors.
pub fn answer_line(state: &mut State, line: &[u8]) -> Option<String> {
    if line.len() > LONGEST_LINE {
        return Some("error".to_string());
    }
    if line.is_empty() || line[0] == b'#' {
        return None;
    }
    let words: Vec<&str> = match std::str::from_utf8(line) {
        Ok(text) => text.split_ascii_whitespace().collect(),
        Err(_) => Vec::new(),
    };
    let answer = answer_call(state, &words)
        .or_else(|| answer_file(state, &words))
        .or_else(|| answer_question(state, &words));
    Some(answer.unwrap_or("error".to_string()))
}

/// The call that may change the deck, if the words ask for one.
pub fn call_of(words: &[&str]) -> Option<Call> {
    match words {
        ["add", x, y] => Some(Call::Add(number(x)?, number(y)?, SENSOR)),
        ["add", x, y, kind] => {
            let kind = u32::try_from(number(kind)?).ok()?;
            Some(Call::Add(number(x)?, number(y)?, kind))
        }
        ["withdraw", x, y] => Some(Call::Withdraw(number(x)?, number(y)?)),
        ["round"] => Some(Call::Round),
        ["finish"] => Some(Call::Finish),
        ["tail", tail] => Some(Call::SetTail(u32::try_from(number(tail)?).ok()?)),
        _ => None,
    }
}

/// The answer to a call that may change the deck.
fn answer_call(state: &mut State, words: &[&str]) -> Option<String> {
    let (next, reply) = call(state, call_of(words)?);
    *state = next;
    Some(reply_line(reply))
}

/// The line of a script that asks for a call. A sensor need not be named.
pub fn call_line(call: Call) -> String {
    match call {
        Call::Add(x, y, SENSOR) => format!("add {x} {y}"),
        Call::Add(x, y, kind) => format!("add {x} {y} {kind}"),
        Call::Withdraw(x, y) => format!("withdraw {x} {y}"),
        Call::Round => "round".to_string(),
        Call::Finish => "finish".to_string(),
        Call::SetTail(tail) => format!("tail {tail}"),
    }
}

/// The answer line for a reply.
pub fn reply_line(reply: Reply) -> String {
    match reply {
        Reply::Done => "ok".to_string(),
        Reply::Refused(number) => refused(number),
        Reply::Finished => "finished".to_string(),
        Reply::Tap { x, y, gain } => format!("tap {x} {y} fall {gain}"),
        Reply::Rounds(rounds) => format!("rounds {rounds}"),
    }
}

/// The answer to a reading or a writing. A refused file leaves an empty deck;
/// without a capacity the buffer is as long as the longest file.
fn answer_file(state: &mut State, words: &[&str]) -> Option<String> {
    match words {
        ["read", hex] => match read(&bytes_of(hex)?) {
            Ok(deck) => {
                *state = deck;
                Some("ok".to_string())
            }
            Err(number) => {
                *state = State::default();
                Some(refused(number))
            }
        },
        ["write"] => Some(answer_write(state, LONGEST)),
        ["write", capacity] => Some(answer_write(state, size(capacity)?)),
        _ => None,
    }
}

fn answer_write(state: &State, capacity: usize) -> String {
    let mut buffer = vec![0; capacity.min(LONGEST)];
    match write_into(state, &mut buffer) {
        Ok(length) => format!("file {length} {}", hex_of(&buffer[..length])),
        Err(number) => refused(number),
    }
}

/// The answer to a question.
fn answer_question(state: &State, words: &[&str]) -> Option<String> {
    let answer = match words {
        ["length"] => length(state).map(|length| format!("length {length}")),
        ["counts"] => counts(state).map(|(p, t, r)| format!("counts {p} {t} {r}")),
        ["kinds"] => kind_lengths(state).map(|[a, b, c]| format!("kinds {a} {b} {c}")),
        ["run", place] => answer_run(state, size(place)?),
        ["degree", x, y] => {
            let point = Point::new(number(x)?, number(y)?);
            degree_at(state, point).map(|degree| format!("degree {degree}"))
        }
        ["column", x] => column(state, number(x)?).map(column_line),
        ["octant", dx, dy] => Ok(format!("octant {}", octant(number(dx)?, number(dy)?)?)),
        ["arrow", ..] => answer_arrow(&sight_of(words)?),
        ["glyph", n] => Ok(format!("glyph {}", glyph(number(n)?))),
        ["list"] => Ok(listing(state).trim_end().replace('\n', " / ")),
        _ => return None,
    };
    Some(answer.unwrap_or_else(refused))
}

fn answer_run(state: &State, place: usize) -> Result<String, u8> {
    Ok(match edge_at(state, place)? {
        Some((edge, length)) => {
            let (a, b) = (edge.lower, edge.higher);
            format!("run {} {} {} {} {length}", a.x, a.y, b.x, b.y)
        }
        None => "no run".to_string(),
    })
}

/// The answer line for what a column has.
pub fn column_line(found: Option<(Point, i64)>) -> String {
    match found {
        Some((Point { x, y }, saved)) => format!("column {x} {y} saving {saved}"),
        None => "none".to_string(),
    }
}

/// What a display is asked, if the words ask for an arrow.
fn sight_of(words: &[&str]) -> Option<Sight> {
    let ["arrow", x, y, bay_x, bay_y, pitch] = words else {
        return None;
    };
    Some(Sight {
        display: Point::new(short(x)?, short(y)?),
        bay: Point::new(short(bay_x)?, short(bay_y)?),
        pitch: number(pitch)?,
    })
}

fn answer_arrow(sight: &Sight) -> Result<String, u8> {
    let number = arrow(sight)?;
    Ok(format!("arrow {number} {}", glyph(number.into())))
}

/// The line of a script that asks for an arrow.
pub fn arrow_line(sight: &Sight) -> String {
    let (display, bay) = (sight.display, sight.bay);
    format!(
        "arrow {} {} {} {} {}",
        display.x, display.y, bay.x, bay.y, sight.pitch
    )
}

fn refused(number: u8) -> String {
    format!("refused {number}")
}

/// A whole number of 32 bits, signed: digits, a minus sign before them if it
/// is negative.
pub fn number(word: &str) -> Option<i64> {
    if word.starts_with('+') {
        return None;
    }
    word.parse::<i32>().ok().map(i64::from)
}

/// A number of 16 bits, signed.
fn short(word: &str) -> Option<i64> {
    i16::try_from(number(word)?).ok().map(i64::from)
}

/// A number that is not negative.
fn size(word: &str) -> Option<usize> {
    usize::try_from(number(word)?).ok()
}

/// The bytes of pairs of hexadecimal digits, `-` for none.
pub fn bytes_of(hex: &str) -> Option<Vec<u8>> {
    if hex == "-" {
        return Some(Vec::new());
    }
    if !hex.len().is_multiple_of(2) || !hex.bytes().all(|byte| byte.is_ascii_hexdigit()) {
        return None;
    }
    let byte = |i: usize| u8::from_str_radix(&hex[2 * i..2 * i + 2], 16).ok();
    (0..hex.len() / 2).map(byte).collect()
}

/// Pairs of hexadecimal digits for bytes, `-` for none.
pub fn hex_of(bytes: &[u8]) -> String {
    if bytes.is_empty() {
        return "-".to_string();
    }
    bytes.iter().map(|byte| format!("{byte:02x}")).collect()
}
