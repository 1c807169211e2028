//! Kinds of devices for tests: drawn at random, decks and calls with them, and files
//! with and without the section that names them.

use crate::examples::{comb, cross, deck, example, mixed, points, EXAMPLE};
use crate::file::*;
use crate::generate::{full_state, many_pins, pins as points_of, Kind, Random, KINDS};
use crate::pins::{sensors, Pin, CONTROLLER, DISPLAY, SENSOR};
use crate::plane::Point;
use crate::script::call_line;
use crate::session::{after, Call, State};

/// Kinds that there are not: some that would be one if they were cut to 8 or 16
/// bits, and the greatest that a script can name.
pub const NO_KINDS: [u32; 10] = [
    3,
    4,
    255,
    256,
    258,
    300,
    65_535,
    65_536,
    65_538,
    i32::MAX as u32,
];

/// A kind, most often that of a sensor.
pub fn kind(random: &mut Random) -> u32 {
    random.pick(&[SENSOR, SENSOR, SENSOR, DISPLAY, CONTROLLER])
}

/// A kind to call for: once in eight one that there is not.
pub fn any_kind(random: &mut Random) -> u32 {
    let (right, wrong) = (kind(random), random.pick(&NO_KINDS));
    if random.once_in(8) {
        wrong
    } else {
        right
    }
}

/// Devices at the points: sensors alone, one other among them, or of any kind.
pub fn devices(random: &mut Random, points: &[Point]) -> Vec<Pin> {
    let mut pins = sensors(points);
    match random.range(0, 2) {
        0 if !pins.is_empty() => {
            let place = random.range(0, pins.len() as i64 - 1) as usize;
            pins[place].kind = random.pick(&[DISPLAY, CONTROLLER]);
        }
        1 => pins.iter_mut().for_each(|pin| pin.kind = kind(random)),
        _ => {}
    }
    pins
}

/// Devices at the points, each kind as often as another.
pub fn any_devices(random: &mut Random, points: &[Point]) -> Vec<Pin> {
    let mut kind = || random.pick(&[SENSOR, DISPLAY, CONTROLLER]);
    points
        .iter()
        .map(|&point| Pin::new(point, kind()))
        .collect()
}

/// Decks with taps and with devices of every kind: so many of each kind of deck, of
/// which every second has each device as often as another, and a comb of each size.
pub fn decks_of_devices(random: &mut Random, times: usize, most: i64) -> Vec<State> {
    let mut decks = Vec::new();
    for kind in KINDS {
        for time in 0..times {
            let most = random.range(0, most) as usize;
            let mut state = full_state(random, kind, most);
            if time % 2 == 0 {
                state.pins = any_devices(random, &state.places());
            }
            decks.push(state);
        }
    }
    for state in (1..=62).map(comb) {
        let pins = any_devices(random, &state.places());
        decks.push(State { pins, ..state });
    }
    decks
}

/// Calls by which devices stand where taps may come later: pins and a run to the
/// end, then at each tap a display or a controller, withdrawn again, and a run to
/// the end.
pub fn devices_at_taps(random: &mut Random, kind: Kind, most: usize) -> Vec<Call> {
    let add = |pin: &Pin| Call::Add(pin.point.x, pin.point.y, pin.kind);
    let places = points_of(random, kind, most);
    let pins = any_devices(random, &places);
    let mut calls: Vec<Call> = pins.iter().map(add).collect();
    calls.push(Call::Finish);
    for Point { x, y } in after(&calls).0.steiner {
        let device = random.pick(&[DISPLAY, CONTROLLER]);
        calls.extend([Call::Add(x, y, device), Call::Withdraw(x, y), Call::Finish]);
    }
    calls
}

/// The line of a script that asks for a call; once in two it names a sensor too.
pub fn any_line(random: &mut Random, call: Call) -> String {
    match call {
        Call::Add(_, _, SENSOR) if random.once_in(2) => format!("{} {SENSOR}", call_line(call)),
        _ => call_line(call),
    }
}

/// The file with these kinds, whatever its last section was.
pub fn with_kinds(file: &[u8], kinds: &[u8]) -> Vec<u8> {
    let mut parts = sections(file).expect("a file");
    parts.truncate(DEVICES);
    parts.push(kinds);
    of_sections(&parts)
}

/// The file without taps and runs.
pub fn plain(file: &[u8]) -> Vec<u8> {
    let mut parts = sections(file).expect("a file");
    parts[STEINER] = &[];
    parts[EDGES] = &[];
    of_sections(&parts)
}

/// The file with its first two runs changed for one another, which is wrong.
pub fn with_wrong_runs(file: &[u8]) -> Vec<u8> {
    let mut parts = sections(file).expect("a file");
    let runs = parts[EDGES];
    let turned = [&runs[2..4], &runs[..2], &runs[4..]].concat();
    parts[EDGES] = &turned;
    of_sections(&parts)
}

/// Files that are taken, of both forms, plain and full: the shortest and the
/// longest, one display alone, and some in between.
pub fn taken_files() -> Vec<Vec<u8>> {
    let mut files = Vec::new();
    for state in [
        State::default(),
        deck(&[(7, -3)]),
        deck(&EXAMPLE),
        cross(),
        comb(62),
    ] {
        for state in [state.clone(), mixed(state)] {
            files.extend([write(&state), write_plain(&state.pins)]);
        }
    }
    files
}

/// Files at the borders of the two forms, and the number that refuses each.
pub fn refused_files() -> Vec<(Vec<u8>, u8)> {
    let mut cases = refused_headers();
    cases.extend(refused_sizes());
    cases.extend(refused_pins());
    for state in [example(), cross()] {
        cases.extend(refused_kinds(&state));
    }
    cases
}

/// Files whose header has not the form that its count of sections asks for.
fn refused_headers() -> Vec<(Vec<u8>, u8)> {
    let (three, four) = (write(&example()), write(&mixed(example())));
    let nothing = of_sections(&[&[][..]; WITH_DEVICES]);
    let mut cases = vec![(nothing.clone(), 15)];
    for length in SHORTEST..header(WITH_DEVICES) {
        cases.push((nothing[..length].to_vec(), 2));
        cases.push((four[..length].to_vec(), 2));
    }
    for (file, count) in [(&three, WITH_DEVICES), (&four, WITHOUT_DEVICES)] {
        cases.push((with_count(file, count), 2));
        cases.push((with_start(file, header(count)), 2));
    }
    for count in [0, 1, 2, 5] {
        cases.push((with_count(&three, count), 1));
        cases.push((with_count(&four, count), 1));
        cases.push((of_sections(&vec![&[][..]; count]), 1));
    }
    cases
}

/// The file with another count of sections and nothing else changed.
pub fn with_count(file: &[u8], count: usize) -> Vec<u8> {
    let mut bytes = file.to_vec();
    bytes[COUNT..COUNT + 2].copy_from_slice(&(count as u16).to_le_bytes());
    bytes
}

/// The file with the pins from this byte on and still up to the taps, by its
/// header alone.
pub fn with_start(file: &[u8], start: usize) -> Vec<u8> {
    let mut bytes = file.to_vec();
    let end = bytes.len() - sections(file).expect("a file")[STEINER..].concat().len();
    let pair = [start as u32, (end - start) as u32].map(u32::to_le_bytes);
    bytes[header(PINS)..header(STEINER)].copy_from_slice(&pair.concat());
    bytes
}

/// Files as long as can be, and longer: as many taps as three sections have
/// room for, and pins with their kinds.
fn refused_sizes() -> Vec<(Vec<u8>, u8)> {
    let most = (LONGEST - SHORTEST) / 4;
    let taps = |count: usize| assemble(&[], &many_pins(count), &[]);
    let pins = |count: usize| of_sections(&[&many_pins(count), &[], &[], &vec![1; count]]);
    let (longest, short) = (write(&mixed(comb(62))), write(&comb(62)));
    let room = LONGEST - short.len();
    vec![
        (taps(most), 6),
        (assemble(&[], &vec![0; 4 * most], &[]), 5),
        (taps(most + 1), 1),
        ([&longest[..], &[0]].concat(), 1),
        (longest[..LONGEST - 1].to_vec(), 2),
        ([short.clone(), vec![0; room]].concat(), 2),
        ([short, vec![0; room + 1]].concat(), 1),
        (pins(65), 4),
        (pins(66), 4),
    ]
}

/// Files of a deck whose section of kinds is wrong: with runs that are right,
/// with none where it is plain, and with wrong runs, which come first.
fn refused_kinds(state: &State) -> Vec<(Vec<u8>, u8)> {
    let file = write(state);
    let right = kind_bytes(&mixed(state.clone()).pins);
    let mut wrong = vec![vec![0; right.len()], right[1..].to_vec(), Vec::new()];
    wrong.push([&right[..], &[0]].concat());
    wrong.push([&right[..], &[1]].concat());
    wrong.push([&right[..], &[3]].concat());
    for kind in [3, 4, 128, 255] {
        wrong.push([&right[1..], &[kind]].concat());
    }
    let mut cases = vec![(with_wrong_runs(&with_kinds(&file, &right)), 6)];
    for kinds in wrong {
        let full = with_kinds(&file, &kinds);
        cases.push((plain(&full), 15));
        cases.push((with_wrong_runs(&full), 6));
        cases.push((full, 15));
    }
    cases
}

/// Pins that an earlier check refuses, beside kinds that are wrong too, and kinds
/// without a pin.
fn refused_pins() -> Vec<(Vec<u8>, u8)> {
    let file = |pins: &[u8]| of_sections(&[pins, &[], &[], &[3, 0]]);
    let two = |first, second| point_bytes(&points(&[first, second]));
    vec![
        (file(&two((0, 0), (0, 1))[..7]), 3),
        (file(&two((0, 0), (0, 30_001))), 5),
        (file(&two((0, 1), (0, 0))), 5),
        (file(&two((0, 0), (0, 1))), 15),
        (of_sections(&[&[], &[], &[], &[1]]), 15),
    ]
}
