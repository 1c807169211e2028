//! Deck files with damages, each for one refusal number: 1 to 6 and 15.

use crate::devices::{with_count, with_start};
use crate::file::*;
use crate::generate::{full_state, many_pins, Kind, Random};
use crate::plane::{Point, LIMIT};
use crate::session::{State, BAD_KIND};

/// The sections of a file, put together at the end.
struct Draft {
    pins: Vec<u8>,
    steiner: Vec<u8>,
    edges: Vec<u8>,
    kinds: Option<Vec<u8>>,
}

/// A file with damages for the numbers given: the least of them is refused.
/// Later checks are damaged first where one damage would undo another. Some files
/// are plain, where neither points nor runs are to be damaged.
pub fn damaged(random: &mut Random, numbers: &[u8]) -> Vec<u8> {
    let state = base(random);
    let file = write(&state);
    let parts = sections(&file).expect("a file");
    let mut draft = Draft {
        pins: parts[PINS].to_vec(),
        steiner: parts[STEINER].to_vec(),
        edges: parts[EDGES].to_vec(),
        kinds: parts.get(DEVICES).map(|kinds| kinds.to_vec()),
    };
    if !numbers.contains(&5) && !numbers.contains(&6) && random.once_in(3) {
        draft.steiner.clear();
        draft.edges.clear();
    }
    for number in [BAD_KIND, 6, 4, 5, 3] {
        if numbers.contains(&number) {
            match number {
                BAD_KIND => damage_kinds(random, &mut draft),
                6 => damage_edges(random, &state, &mut draft),
                4 => draft.pins = many_pins(random.range(65, 70) as usize),
                5 => damage_points(random, &mut draft),
                _ => damage_lengths(random, &mut draft),
            }
        }
    }
    let mut bytes = finished(&draft);
    if numbers.contains(&2) {
        bytes = damage_table(random, bytes);
    }
    if numbers.contains(&1) {
        bytes = damage_start(random, bytes);
    }
    bytes
}

/// A valid state to damage: four pins or more, and a Steiner point.
fn base(random: &mut Random) -> State {
    loop {
        let kind = random.pick(&[Kind::Small, Kind::EvenPitch, Kind::Lanes, Kind::Scattered]);
        let most = random.range(6, 20) as usize;
        let state = full_state(random, kind, most);
        if state.pins.len() >= 4 && !state.steiner.is_empty() {
            return state;
        }
    }
}

fn finished(draft: &Draft) -> Vec<u8> {
    let mut parts = vec![&draft.pins[..], &draft.steiner, &draft.edges];
    parts.extend(draft.kinds.as_deref());
    of_sections(&parts)
}

/// Damage 1: the first bytes, the section count, or the size.
fn damage_start(random: &mut Random, mut bytes: Vec<u8>) -> Vec<u8> {
    match random.range(0, 3) {
        0 => bytes[random.range(0, 3) as usize] ^= 1 << random.range(0, 7),
        1 => {
            let count = random.pick(&[0, 1, 2, 5, 259, 260, 768, 1_024, 65_535]);
            bytes = with_count(&bytes, count);
        }
        2 => bytes.truncate(random.range(0, SHORTEST as i64 - 1) as usize),
        _ => bytes.resize(random.range(LONGEST as i64 + 1, 1_000) as usize, 0),
    }
    bytes
}

/// Damage 2: bytes past the last section, the count or the start of the other
/// form, too few bytes for four pairs, or one number of the table.
fn damage_table(random: &mut Random, mut bytes: Vec<u8>) -> Vec<u8> {
    let count = sections(&bytes).expect("a file").len();
    let other = WITHOUT_DEVICES + WITH_DEVICES - count;
    match random.range(0, 7) {
        0 => bytes.extend(vec![0; random.range(1, 4) as usize]),
        1 => bytes = with_count(&bytes, other),
        2 => bytes = with_start(&bytes, header(other)),
        3 => {
            bytes = with_count(&bytes, WITH_DEVICES);
            bytes.truncate(random.range(SHORTEST as i64, header(WITH_DEVICES) as i64 - 1) as usize);
        }
        _ => {
            let at = header(0) + 4 * random.range(0, 2 * count as i64 - 1) as usize;
            let difference = random.pick(&[1, 2, 4, u32::MAX, u32::MAX - 3, 1 << 16, 1 << 31]);
            let old = u32::from_le_bytes(bytes[at..at + 4].try_into().unwrap());
            bytes[at..at + 4].copy_from_slice(&old.wrapping_add(difference).to_le_bytes());
        }
    }
    bytes
}

/// Damage 3: a section whose length is no multiple.
fn damage_lengths(random: &mut Random, draft: &mut Draft) {
    match random.range(0, 2) {
        0 => draft.pins.extend(vec![0; random.range(1, 3) as usize]),
        1 => draft.steiner.extend(vec![0; random.range(1, 3) as usize]),
        _ => draft.edges.push(200),
    }
}

/// Damage 5: a coordinate out of range, the order, or a tap on a pin.
fn damage_points(random: &mut Random, draft: &mut Draft) {
    let section = if random.once_in(2) {
        &mut draft.pins
    } else {
        &mut draft.steiner
    };
    match random.range(0, 3) {
        0 => {
            let place = 2 * random.range(0, section.len() as i64 / 2 - 1) as usize;
            let out = random.pick(&[LIMIT + 1, -LIMIT - 1, 32_767, -32_768]) as i16;
            section[place..place + 2].copy_from_slice(&out.to_le_bytes());
        }
        1 => section.extend_from_within(..4),
        2 => section
            .splice(..0, point_bytes(&[Point::new(LIMIT, LIMIT)]))
            .for_each(drop),
        _ => {
            let place = 4 * random.range(0, draft.pins.len() as i64 / 4 - 1) as usize;
            draft.steiner = draft.pins[place..place + 4].to_vec();
        }
    }
}

/// Damage 6: the runs of a file that is not plain.
fn damage_edges(random: &mut Random, state: &State, draft: &mut Draft) {
    let edges = &mut draft.edges;
    let place = 2 * random.range(0, edges.len() as i64 / 2 - 1) as usize;
    match random.range(0, 6) {
        0 => edges.swap(place, place + 1),
        1 => edges.drain(place..place + 2).for_each(drop),
        2 => edges.extend_from_within(place..place + 2),
        3 => edges[place + 1] = state.points().len() as u8,
        4 => edges.clear(),
        5 => edges[place] = edges[place + 1],
        _ => *edges = other_tree(state, edges),
    }
}

/// Damage 15: a kind that there is not, a byte less or more than pins, or
/// sensors alone.
fn damage_kinds(random: &mut Random, draft: &mut Draft) {
    let pins = draft.pins.len() / 4;
    let kinds = draft.kinds.get_or_insert(vec![1; pins]);
    let place = random.range(0, pins as i64 - 1) as usize;
    match random.range(0, 3) {
        0 => kinds[place] = random.pick(&[3, 4, 128, 255]),
        1 => kinds.drain(place..=place).for_each(drop),
        2 => kinds.insert(place, random.range(0, 2) as u8),
        _ => kinds.fill(0),
    }
}

/// The runs of a star from the first point; none where that is the tree.
fn other_tree(state: &State, right: &[u8]) -> Vec<u8> {
    let points = state.points().len() as u8;
    let mut edges: Vec<u8> = (1..points).flat_map(|i| [0, i]).collect();
    if edges == right {
        edges.clear();
    }
    edges
}
