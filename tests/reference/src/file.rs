//! The deck file.

use crate::pins::{only_sensors, places, sensors, Pin};
use crate::plane::Point;
use crate::session::{rises, valid, State, BAD_KIND, MOST_PINS};
use crate::tree::{degree, listing_order, tree};

/// The first four bytes of a file.
pub const MAGIC: &[u8; 4] = b"DECK";
/// Where the count of sections stands, two bytes.
pub const COUNT: usize = MAGIC.len();

/// The sections by their numbers. The last one, the kinds of the devices, may be
/// missing.
pub const PINS: usize = 0;
pub const STEINER: usize = 1;
pub const EDGES: usize = 2;
pub const DEVICES: usize = 3;

/// How many sections there are without the kinds, and with them.
pub const WITHOUT_DEVICES: usize = DEVICES;
pub const WITH_DEVICES: usize = DEVICES + 1;

/// The length of the shortest file.
pub const SHORTEST: usize = header(WITHOUT_DEVICES);
/// The length of the longest file: of p pins it has p - 2 taps, one run less
/// than points, and the kinds.
pub const LONGEST: usize = header(WITH_DEVICES)
    + 4 * MOST_PINS
    + 4 * (MOST_PINS - 2)
    + 2 * (2 * MOST_PINS - 3)
    + MOST_PINS;

/// The bytes of the header of some sections: the four letters, the count, and
/// offset and length of each.
pub const fn header(sections: usize) -> usize {
    COUNT + 2 + 8 * sections
}

/// The file of a state, its edges written out (SPEC 7.5: the writer). The tail is
/// not filed.
pub fn write(state: &State) -> Vec<u8> {
    let points = state.points();
    let number = |point: Point| points.iter().position(|&p| p == point).unwrap() as u8;
    let mut edges = Vec::new();
    for edge in listing_order(&tree(&points)) {
        edges.push(number(edge.lower));
        edges.push(number(edge.higher));
    }
    with_devices(&state.pins, &point_bytes(&state.steiner), &edges)
}

/// The plain file of some pins (SPEC 7.4: plain), in the order given.
pub fn write_plain(pins: &[Pin]) -> Vec<u8> {
    with_devices(pins, &[], &[])
}

/// The file of some pins and two sections. It has the kinds exactly if one of
/// the pins is no sensor.
fn with_devices(pins: &[Pin], steiner: &[u8], edges: &[u8]) -> Vec<u8> {
    let points = point_bytes(&places(pins));
    if only_sensors(pins) {
        assemble(&points, steiner, edges)
    } else {
        of_sections(&[&points, steiner, edges, &kind_bytes(pins)])
    }
}

/// The file of three sections.
pub fn assemble(pins: &[u8], steiner: &[u8], edges: &[u8]) -> Vec<u8> {
    of_sections(&[pins, steiner, edges])
}

/// Header and sections put together.
pub fn of_sections(sections: &[&[u8]]) -> Vec<u8> {
    let mut bytes = MAGIC.to_vec();
    bytes.extend((sections.len() as u16).to_le_bytes());
    let mut offset = header(sections.len()) as u32;
    for section in sections {
        bytes.extend(offset.to_le_bytes());
        bytes.extend((section.len() as u32).to_le_bytes());
        offset += section.len() as u32;
    }
    [bytes, sections.concat()].concat()
}

/// The length of a section in bytes, by its pair in the header.
pub fn section_length(bytes: &[u8], section: usize) -> usize {
    number_at(bytes, header(section) + 4) as usize
}

/// Whether a file that is taken is plain.
pub fn is_plain(bytes: &[u8]) -> bool {
    section_length(bytes, STEINER) == 0 && section_length(bytes, EDGES) == 0
}

/// The bytes of a section of points: x then y, 16 bits each.
pub fn point_bytes(points: &[Point]) -> Vec<u8> {
    let mut bytes = Vec::new();
    for point in points {
        bytes.extend((point.x as i16).to_le_bytes());
        bytes.extend((point.y as i16).to_le_bytes());
    }
    bytes
}

/// The bytes of a section of kinds, one for each pin.
pub fn kind_bytes(pins: &[Pin]) -> Vec<u8> {
    let byte = |pin: &Pin| u8::try_from(pin.kind).expect("a kind of one byte");
    pins.iter().map(byte).collect()
}

/// Writes the file at the start of a buffer. Checks 11, 12.
pub fn write_into(state: &State, buffer: &mut [u8]) -> Result<usize, u8> {
    valid(state)?;
    let bytes = write(state);
    if buffer.len() < bytes.len() {
        return Err(12);
    }
    buffer[..bytes.len()].copy_from_slice(&bytes);
    Ok(bytes.len())
}

/// Reads a file; its deck has no tail. Checks 1 to 6 and 15, in this order.
pub fn read(bytes: &[u8]) -> Result<State, u8> {
    let sections = sections(bytes)?;
    let (pins, steiner, edges) = (sections[PINS], sections[STEINER], sections[EDGES]);
    if pins.len() % 4 != 0 || steiner.len() % 4 != 0 || edges.len() % 2 != 0 {
        return Err(3);
    }
    if pins.len() / 4 > MOST_PINS {
        return Err(4);
    }
    let (pins, steiner) = (points_of(pins), points_of(steiner));
    check_points(&pins, &steiner)?;
    let pins = sensors(&pins);
    let tail = 0;
    let mut state = State {
        pins,
        steiner,
        tail,
    };
    let plain = state.steiner.is_empty() && edges.is_empty();
    if !plain && !shows_valid(&state, edges) {
        return Err(6);
    }
    if let Some(kinds) = sections.get(DEVICES) {
        state.pins = named(&state.pins, kinds)?;
    }
    Ok(state)
}

/// Check 15: a kind for each pin, each of them known, and not sensors alone.
/// The pins with these kinds.
fn named(pins: &[Pin], kinds: &[u8]) -> Result<Vec<Pin>, u8> {
    let pair = |(pin, &kind): (&Pin, &u8)| Pin::new(pin.point, kind.into());
    let named: Vec<Pin> = pins.iter().zip(kinds).map(pair).collect();
    let known = named.iter().all(|pin| pin.is_known());
    if kinds.len() != pins.len() || !known || only_sensors(&named) {
        return Err(BAD_KIND);
    }
    Ok(named)
}

/// Check 1: the size, the first four bytes and the section count, which is
/// handed back.
fn check_start(bytes: &[u8]) -> Result<usize, u8> {
    if bytes.len() < SHORTEST || bytes.len() > LONGEST || &bytes[..COUNT] != MAGIC {
        return Err(1);
    }
    let count = u16::from_le_bytes([bytes[COUNT], bytes[COUNT + 1]]) as usize;
    if count != WITHOUT_DEVICES && count != WITH_DEVICES {
        return Err(1);
    }
    Ok(count)
}

/// The sections of a file. Checks 1 and 2: bytes for all the pairs, and each
/// section from where the one before ends.
pub fn sections(bytes: &[u8]) -> Result<Vec<&[u8]>, u8> {
    let count = check_start(bytes)?;
    if bytes.len() < header(count) {
        return Err(2);
    }
    let mut found = Vec::new();
    let mut end = header(count) as u64;
    for section in 0..count {
        let offset = number_at(bytes, header(section));
        let length = number_at(bytes, header(section) + 4);
        if offset != end || offset + length > bytes.len() as u64 {
            return Err(2);
        }
        end = offset + length;
        found.push(&bytes[offset as usize..end as usize]);
    }
    if end != bytes.len() as u64 {
        return Err(2);
    }
    Ok(found)
}

/// The 32-bit number at a place, in 64 bits, so that no sum wraps.
fn number_at(bytes: &[u8], place: usize) -> u64 {
    let four = [
        bytes[place],
        bytes[place + 1],
        bytes[place + 2],
        bytes[place + 3],
    ];
    u32::from_le_bytes(four) as u64
}

/// The points of a section.
fn points_of(section: &[u8]) -> Vec<Point> {
    let number = |low: u8, high: u8| i16::from_le_bytes([low, high]) as i64;
    let point = |four: &[u8]| Point::new(number(four[0], four[1]), number(four[2], four[3]));
    section.chunks(4).map(point).collect()
}

/// Check 5: coordinates in range, both sections rising, no tap on a pin.
fn check_points(pins: &[Point], steiner: &[Point]) -> Result<(), u8> {
    let in_range = pins.iter().chain(steiner).all(|point| point.in_range());
    let apart = steiner.iter().all(|tap| !pins.contains(tap));
    if in_range && rises(pins) && rises(steiner) && apart {
        Ok(())
    } else {
        Err(5)
    }
}

/// Check 6, on a file that is not plain: the runs section is in order, its
/// numbers are those of points, and with it the file shows a valid deck.
fn shows_valid(state: &State, section: &[u8]) -> bool {
    let points = state.points();
    let edges: Vec<(u8, u8)> = section.chunks(2).map(|two| (two[0], two[1])).collect();
    let numbers = edges
        .iter()
        .all(|&(a, b)| a < b && (b as usize) < points.len());
    let order = edges.windows(2).all(|pair| pair[0] < pair[1]);
    if !numbers || !order {
        return false;
    }
    let fresh = listing_order(&tree(&points));
    let ends = |&(a, b): &(u8, u8)| (points[a as usize], points[b as usize]);
    let same = edges.len() == fresh.len()
        && edges
            .iter()
            .zip(&fresh)
            .all(|(edge, want)| ends(edge) == (want.lower, want.higher));
    same && state.steiner.iter().all(|&tap| degree(&fresh, tap) >= 3)
}
