//! Mistakes in a picture that tempt: each differs from SPEC 9.9 in one rule. The decks
//! of the tests must tell each from the right one.

use crate::picture_rules::{pin_marks, tap_marks, Rules, RIGHT};
use crate::pins::{kind_of, sensors, Pin};
use crate::session::{finish, State};

/// A change of one rule.
type Change = fn(&mut Rules);

/// Each mistake in where things stand.
pub const WRONG_PLACES: [(&str, Change); 18] = [
    ("y downward", |r| {
        r.down = |f, point| 20 * f.unit + 400 * (point.y - f.greatest_y + f.height)
    }),
    ("x to the left", |r| {
        r.across = |f, point| 220 * f.unit + 200 * f.width - 400 * (point.x - f.least_x)
    }),
    ("x and y exchanged", |r| {
        r.across = RIGHT.down;
        r.down = RIGHT.across;
    }),
    ("from the origin", |r| {
        r.across = |f, point| 220 * f.unit - 200 * f.width + 400 * point.x
    }),
    ("from the least x of 0", |r| {
        r.across = |f, point| 220 * f.unit - 200 * f.width + 400 * (point.x - f.least_x.min(0))
    }),
    ("not in the middle", |r| {
        r.across = |f, point| 20 * f.unit + 400 * (point.x - f.least_x)
    }),
    ("another margin", |r| {
        r.down = |f, point| (RIGHT.down)(f, point) + f.unit
    }),
    ("a margin of 20 units", |r| {
        r.down = |f, point| 20 + 400 * (f.greatest_y - point.y)
    }),
    ("another centimetre", |r| {
        r.down = |f, point| 20 * f.unit + 40 * (f.greatest_y - point.y)
    }),
    ("the box around the pins alone", |r| r.boxed = State::places),
    ("the box around the taps alone", |r| {
        r.boxed = |state| match state.steiner[..] {
            [] => state.places(),
            _ => state.steiner.clone(),
        }
    }),
    ("the unit 0", |r| r.unit = i64::max),
    ("the unit of the width", |r| {
        r.unit = |width, _| width.max(1)
    }),
    ("the unit of the height", |r| {
        r.unit = |_, height| height.max(1)
    }),
    ("the lesser side", |r| {
        r.unit = |width, height| width.min(height).max(1)
    }),
    ("a frame without a foot", |r| {
        r.size = |f| (440 * f.unit, 400 * f.height + 40 * f.unit)
    }),
    ("a square frame", |r| {
        r.size = |f| (440 * f.unit, 520 * f.unit)
    }),
    ("the foot at the top", |r| r.foot = |_| 0),
];

/// Each mistake in what is drawn and said.
pub const WRONG_MARKS: [(&str, Change); 27] = [
    ("the run from its higher end", |r| {
        r.path = |here, there| (RIGHT.path)(there, here)
    }),
    ("the run along y first", |r| {
        r.path = |[a, b], [c, e]| format!("M{a} {b}V{e}H{c}")
    }),
    ("the run straight", |r| {
        r.path = |[a, b], [c, e]| format!("M{a} {b}L{c} {e}")
    }),
    ("no step of 0", |r| {
        r.path = |[a, b], [c, e]| match (a == c, b == e) {
            (true, _) => format!("M{a} {b}V{e}"),
            (_, true) => format!("M{a} {b}H{c}"),
            _ => format!("M{a} {b}H{c}V{e}"),
        }
    }),
    ("the pins without their tree", |r| r.runs = |_| Vec::new()),
    ("the runs by their length", |r| r.runs = State::tree),
    ("the runs by their higher end", |r| {
        r.runs = |state| {
            let mut runs = state.tree();
            runs.sort_by_key(|run| (run.higher, run.lower));
            runs
        }
    }),
    ("the runs by their kind", |r| {
        r.runs = |state| {
            let mut runs = (RIGHT.runs)(state);
            runs.sort_by_key(|&run| kind_of(&state.pins, run));
            runs
        }
    }),
    ("the last run missing", |r| {
        r.runs = |state| {
            let mut runs = (RIGHT.runs)(state);
            runs.pop();
            runs
        }
    }),
    ("the deck after a run to the end", |r| {
        r.deck = |state| finish(state).0
    }),
    ("the deck without its taps", |r| {
        r.deck = |state| State::new(state.pins.clone(), Vec::new())
    }),
    ("sensors alone", |r| {
        r.deck = |state| State::new(sensors(&state.places()), state.steiner.clone())
    }),
    ("displays and controllers exchanged", |r| {
        r.deck = |state| {
            let other = |pin: &Pin| Pin::new(pin.point, [0, 2, 1][pin.kind as usize]);
            State::new(
                state.pins.iter().map(other).collect(),
                state.steiner.clone(),
            )
        }
    }),
    ("taps in front of pins", |r| {
        r.marks = |state| [tap_marks(state), pin_marks(state)].concat()
    }),
    ("pins and taps in one order", |r| {
        r.marks = |state| {
            let mut marks = (RIGHT.marks)(state);
            marks.sort_by_key(|mark| mark.1);
            marks
        }
    }),
    ("pins by their kind", |r| {
        r.marks = |state| {
            let mut pins = state.pins.clone();
            pins.sort_by_key(|pin| (pin.kind, pin.point));
            let state = State {
                pins,
                ..state.clone()
            };
            (RIGHT.marks)(&state)
        }
    }),
    ("no taps", |r| r.marks = pin_marks),
    ("taps are sensors", |r| {
        r.marks = |state| {
            let taps = state.steiner.iter().map(|&tap| ("sensor", tap));
            pin_marks(state).into_iter().chain(taps).collect()
        }
    }),
    ("x and y exchanged in titles", |r| {
        r.title = |name, point| format!("{name} {} {}", point.y, point.x)
    }),
    ("titles without a sign", |r| {
        r.title = |name, point| format!("{name} {} {}", point.x.abs(), point.y.abs())
    }),
    ("taps counted as pins", |r| {
        r.numbers = |state| {
            let [pins, taps, length] = (RIGHT.numbers)(state);
            [pins + taps, taps, length]
        }
    }),
    ("the length of the pins alone", |r| {
        r.numbers = |state| {
            let [pins, taps, _] = (RIGHT.numbers)(state);
            let alone = State::new(state.pins.clone(), Vec::new());
            [pins, taps, (RIGHT.numbers)(&alone)[2]]
        }
    }),
    ("runs of one thickness", |r| r.stroke = |_| 1),
    ("a mark that is not there", |r| {
        r.text = |text| text.replace("id='tap'", "id='taps'")
    }),
    ("a tag left open", |r| {
        r.text = |text| text.replacen("</title>", "", 1)
    }),
    ("other quotes", |r| r.text = |text| text.replace('\'', "\"")),
    ("no line feed at the end", |r| {
        r.text = |text| text.trim_end().to_string()
    }),
];
