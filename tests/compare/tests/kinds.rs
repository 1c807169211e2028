//! Kinds of devices in calls: they go with their pins, and a kind that there is not
//! is refused by 15, after 7 and before 8 and 10. What is expected is written down
//! here and not the reference's alone.

use compare::binding::calls::empty;
use compare::binding::deck::Deck;
use compare::binding::entries::replay;
use compare::binding::programs::deckplay;
use compare::check::sessions::{refused_call, same_call};
use compare::input::call_bytes::call_bytes;
use reference::devices::NO_KINDS;
use reference::examples::{comb, cross, mixed, points};
use reference::file::{write, LONGEST};
use reference::generate::{Kind, Place, Random};
use reference::pins::{Pin, CONTROLLER, DISPLAY, SENSOR};
use reference::plane::Point;
use reference::refusals::Refusals;
use reference::script::{call_line, hex_of};
use reference::session::{Call, Reply, State};

fn add(pin: Pin) -> Call {
    Call::Add(pin.point.x, pin.point.y, pin.kind)
}

fn withdraw(pin: Pin) -> Call {
    Call::Withdraw(pin.point.x, pin.point.y)
}

/// Makes a call that is taken.
fn take((deck, state): (Deck, State), asked: Call) -> (Deck, State) {
    let (next, left, reply) = same_call(&deck, &state, asked);
    assert_eq!(reply, Reply::Done, "{asked:?} on {state:?}");
    (next, left)
}

/// The deck has these kinds, and zeros behind them.
fn has_kinds(deck: &Deck, kinds: &[u32]) {
    let found = deck.kinds.map(u32::from);
    let (first, rest) = found.split_at(kinds.len());
    assert_eq!(first, kinds);
    assert!(rest.iter().all(|&kind| kind == 0), "{found:?}");
}

/// The kinds of pins from the lowest pin up.
fn in_pin_order(pins: &[Pin]) -> Vec<u32> {
    let mut rising = pins.to_vec();
    rising.sort_by_key(|pin| (pin.point.x, pin.point.y));
    rising.iter().map(|pin| pin.kind).collect()
}

/// Pins added below others, between them and above, and withdrawn in any order:
/// each keeps its kind.
#[test]
fn kinds_go_with_their_pins() {
    let mut random = Random::new(131);
    let mut below = 0;
    for _ in 0..300 {
        let place = Place::new(&mut random, Kind::EvenPitch);
        let places = place.points(&mut random, 9);
        let pins = random.shuffled(&places).into_iter().enumerate();
        let pins: Vec<Pin> = pins.map(|(i, p)| Pin::new(p, i as u32 % 3)).collect();
        let mut now = (empty(), State::default());
        for (count, &pin) in pins.iter().enumerate() {
            below += pins[..count].iter().any(|held| held.point > pin.point) as usize;
            now = take(now, add(pin));
            has_kinds(&now.0, &in_pin_order(&pins[..=count]));
        }
        let leaving = random.shuffled(&pins);
        for (count, &pin) in leaving.iter().enumerate() {
            now = take(now, withdraw(pin));
            has_kinds(&now.0, &in_pin_order(&leaving[count + 1..]));
        }
    }
    assert!(below > 1_000, "only {below} pins below others");
}

/// A round and a run to the end leave the kinds.
#[test]
fn kinds_after_rounds() {
    let pins = [((0, 5), 2), ((5, 0), 0), ((5, 10), 1), ((10, 5), 1)];
    let mut now = (empty(), State::default());
    for ((x, y), kind) in pins {
        now = take(now, Call::Add(x, y, kind));
    }
    for asked in [Call::Round, Call::Finish] {
        let (next, left, _) = same_call(&now.0, &now.1, asked);
        assert_eq!(left.steiner, points(&[(5, 5)]));
        has_kinds(&next, &[2, 0, 1, 1]);
        now = (next, left);
    }
}

/// The tap in the middle of the cross stands between the second pin and the third.
#[test]
fn a_tap_becomes_the_device_named() {
    for kind in [SENSOR, DISPLAY, CONTROLLER] {
        let state = mixed(cross());
        let deck = Deck::of(&state);
        has_kinds(&deck, &[1, 2, 0, 1]);
        let (next, _) = take((deck, state), Call::Add(5, 5, kind));
        has_kinds(&next, &[1, 2, kind, 0, 1]);
        assert_eq!(next.nsteiner(), 0);
    }
}

/// Without its only display a deck is filed in three sections again, by the script
/// program and by lists of calls for C.
#[test]
fn the_only_display_withdrawn() {
    let display = Pin::new(Point::new(0, 0), DISPLAY);
    let sensor = Pin::new(Point::new(5, 8), SENSOR);
    let file = |pins: &[Pin]| write(&State::new(pins.to_vec(), Vec::new()));
    let calls = [add(display), add(sensor), withdraw(display)];
    let files = [file(&[display]), file(&[display, sensor]), file(&[sensor])];
    let sizes = files.each_ref().map(|file| (file[4], file.len()));
    assert_eq!(sizes, [(4, 43), (4, 50), (3, 34)]);

    let lines = calls.map(|call| format!("{}\nwrite\n", call_line(call)));
    let answer = |file: &Vec<u8>| format!("ok\nfile {} {}\n", file.len(), hex_of(file));
    let answers: String = files.iter().map(answer).collect();
    assert_eq!(deckplay(lines.concat().as_bytes()), answers);

    let mut random = Random::new(132);
    let bytes = calls.map(|call| call_bytes(&mut random, call));
    for (count, file) in files.iter().enumerate() {
        let mut out = [0; LONGEST];
        let length = replay(&[], &bytes[..=count].concat(), &mut out);
        assert_eq!(&out[..length], file);
    }
}

/// What adding a kind at a place answers, in the order of the checks.
fn refusal(state: &State, (x, y): (i64, i64), kind: u32) -> Option<u8> {
    let point = Point::new(x, y);
    let faults = [
        (!point.in_range(), 7),
        (kind > 2, 15),
        (state.places().contains(&point), 8),
        (state.pins.len() == 64, 10),
    ];
    let first = faults.into_iter().find(|&(fails, _)| fails);
    first.map(|(_, number)| number)
}

/// Every kind that there is and many that there are not, at a free place, on a pin,
/// on a tap and out of range, with few pins and with 64.
#[test]
fn the_order_of_the_checks() {
    let mut seen = Refusals::default();
    let mut taken = 0;
    let few = [(5, 1), (5, 0), (5, 5), (30_001, 0)];
    let many = [(5, 1), (0, 0), (10, 0), (0, -30_001)];
    for (state, places) in [(mixed(cross()), few), (mixed(comb(62)), many)] {
        let (x, y) = places[2];
        let tap = Point { x, y };
        assert!(state.steiner.contains(&tap), "a tap is there");
        let deck = Deck::of(&state);
        for place @ (x, y) in places {
            for kind in [0, 1, 2, u32::MAX].into_iter().chain(NO_KINDS) {
                let asked = Call::Add(x, y, kind);
                match refusal(&state, place, kind) {
                    Some(number) => {
                        refused_call(&deck, asked, number);
                        seen.see(number);
                    }
                    None => {
                        take((deck, state.clone()), asked);
                        taken += 1;
                    }
                }
            }
        }
    }
    seen.are_exactly(&[7, 8, 10, 15], 6);
    assert_eq!((taken, seen.by(15)), (6, 6 * 11));
}

/// Lines that add, with a kind and without one.
const LINES: [(&str, &str); 20] = [
    ("add 0 0", "ok"),
    ("add 1 0 0", "ok"),
    ("add 2 0 1", "ok"),
    ("add\t3 0  002 ", "ok"),
    ("add 4 0 3", "refused 15"),
    ("add 4 0 255", "refused 15"),
    ("add 4 0 256", "refused 15"),
    ("add 4 0 300", "refused 15"),
    ("add 4 0 65536", "refused 15"),
    ("add 4 0 2147483647", "refused 15"),
    ("add 2 0 3", "refused 15"),
    ("add 2 0 2", "refused 8"),
    ("add 30001 0 3", "refused 7"),
    ("add 4 0 -1", "error"),
    ("add 4 0 -256", "error"),
    ("add 4 0 2147483648", "error"),
    ("add 4 0 +1", "error"),
    ("add 4 0 1x", "error"),
    ("add 4 0 1 1", "error"),
    ("withdraw 2 0 1", "error"),
];

#[test]
fn lines_of_a_script() {
    let script = LINES.map(|(line, _)| format!("{line}\n")).concat();
    let mut answers = LINES.map(|(_, answer)| format!("{answer}\n")).concat();
    let kinds = [0, 0, 1, 2].into_iter().enumerate();
    let pins = kinds.map(|(x, kind)| Pin::new(Point::new(x as i64, 0), kind));
    let file = write(&State::new(pins.collect(), Vec::new()));
    answers += &format!("file 64 {}\n", hex_of(&file));
    assert_eq!(deckplay((script + "write\n").as_bytes()), answers);
}
