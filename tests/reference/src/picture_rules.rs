//! The picture once more (SPEC 9.9), with each rule by itself, so that a test can
//! change one of them.

use crate::plane::{Edge, Point};
use crate::session::State;

/// The box around points: its least x, its greatest y, its sides, and the unit.
#[derive(Clone, Copy, Debug, PartialEq, Eq)]
pub struct Frame {
    pub least_x: i64,
    pub greatest_y: i64,
    pub width: i64,
    pub height: i64,
    pub unit: i64,
}

/// The rules of a picture, each to be changed by itself.
pub struct Rules {
    /// The deck that is drawn, and the points that the box is around.
    pub deck: fn(&State) -> State,
    pub boxed: fn(&State) -> Vec<Point>,
    /// The unit of a width and a height.
    pub unit: fn(i64, i64) -> i64,
    pub across: fn(&Frame, Point) -> i64,
    pub down: fn(&Frame, Point) -> i64,
    /// How thick a run is.
    pub stroke: fn(&Frame) -> i64,
    /// Width and height of the whole, and where its foot begins.
    pub size: fn(&Frame) -> (i64, i64),
    pub foot: fn(&Frame) -> i64,
    /// The runs in their order, and how one is drawn from here to there.
    pub runs: fn(&State) -> Vec<Edge>,
    pub path: fn([i64; 2], [i64; 2]) -> String,
    /// The marks in their order, and what is written on one.
    pub marks: fn(&State) -> Vec<(&'static str, Point)>,
    pub title: fn(&str, Point) -> String,
    /// Pins, taps and length as the foot says them.
    pub numbers: fn(&State) -> [i64; 3],
    /// The whole text at the end.
    pub text: fn(String) -> String,
}

/// The right rules.
pub const RIGHT: Rules = Rules {
    deck: State::clone,
    boxed: State::points,
    unit: |width, height| 1.max(width).max(height),
    across: |f, point| 220 * f.unit + 200 * (2 * (point.x - f.least_x) - f.width),
    down: |f, point| 20 * (f.unit + 20 * (f.greatest_y - point.y)),
    stroke: |f| f.unit,
    size: |f| (440 * f.unit, 40 * (10 * f.height + 3 * f.unit)),
    foot: |f| 400 * f.height,
    runs: |state| {
        let mut runs = state.tree();
        runs.sort_by_key(|run| (run.lower.x, run.lower.y, run.higher.x, run.higher.y));
        runs
    },
    path: |[a, b], [c, e]| format!("M{a} {b}H{c}V{e}"),
    marks: |state| [pin_marks(state), tap_marks(state)].concat(),
    title: |name, point| format!("{name} {} {}", point.x, point.y),
    numbers: |state| {
        let length = state.tree().iter().map(|run| run.length(state.tail)).sum();
        [state.pins.len() as i64, state.steiner.len() as i64, length]
    },
    text: |text| text,
};

/// The marks of the pins.
pub fn pin_marks(state: &State) -> Vec<(&'static str, Point)> {
    let names = ["sensor", "display", "controller"];
    let pins = state.pins.iter();
    pins.map(|pin| (names[pin.kind as usize], pin.point))
        .collect()
}

/// The marks of the taps.
pub fn tap_marks(state: &State) -> Vec<(&'static str, Point)> {
    state.steiner.iter().map(|&tap| ("tap", tap)).collect()
}

/// The box around some points, by some rules.
fn frame_by(rules: &Rules, points: &[Point]) -> Frame {
    let mut xs: Vec<i64> = points.iter().map(|point| point.x).collect();
    let mut ys: Vec<i64> = points.iter().map(|point| point.y).collect();
    xs.sort();
    ys.sort();
    let ends = |z: &[i64]| {
        (
            z.first().copied().unwrap_or(0),
            z.last().copied().unwrap_or(0),
        )
    };
    let ((least_x, greatest_x), (least_y, greatest_y)) = (ends(&xs), ends(&ys));
    let (width, height) = (greatest_x - least_x, greatest_y - least_y);
    Frame {
        least_x,
        greatest_y,
        width,
        height,
        unit: (rules.unit)(width, height),
    }
}

/// The lines of runs and marks, by some rules.
fn drawn_by(rules: &Rules, state: &State, frame: &Frame) -> Vec<String> {
    let place = |point: Point| [(rules.across)(frame, point), (rules.down)(frame, point)];
    let mut lines = Vec::new();
    for run in (rules.runs)(state) {
        let path = (rules.path)(place(run.lower), place(run.higher));
        let title = format!("<title>{} cm</title>", run.length(state.tail));
        lines.push(format!("<path d='{path}'>{title}</path>"));
    }
    lines.push("</g>".to_string());
    for (name, point) in (rules.marks)(state) {
        let [a, b] = place(point);
        let at = format!("transform='translate({a} {b})scale({})'", frame.unit);
        let title = (rules.title)(name, point);
        lines.push(format!(
            "<use href='#{name}' {at}><title>{title}</title></use>"
        ));
    }
    lines
}

/// The picture of a deck by some rules.
pub fn draw_by(rules: &Rules, state: &State) -> String {
    let state = (rules.deck)(state);
    let frame = frame_by(rules, &(rules.boxed)(&state));
    let (unit, (width, height)) = (frame.unit, (rules.size)(&frame));
    let [pins, taps, length] = (rules.numbers)(&state);
    let mut lines = vec![
        format!("<svg xmlns='http://www.w3.org/2000/svg' viewBox='0 0 {width} {height}'>"),
        "<defs>".to_string(),
        "<circle id='sensor' r='2' fill='white' stroke='black'/>".to_string(),
        "<rect id='display' x='-3' y='-3' width='6' height='6' fill='blue'/>".to_string(),
        "<path id='controller' d='M-4 0L0 -4L4 0L0 4Z' fill='red'/>".to_string(),
        "<circle id='tap' r='2'/>".to_string(),
        "</defs>".to_string(),
        format!("<rect width='{width}' height='{height}' fill='white'/>"),
        format!(
            "<g fill='none' stroke='gray' stroke-width='{}'>",
            (rules.stroke)(&frame)
        ),
    ];
    lines.extend(drawn_by(rules, &state, &frame));
    let moved = format!("translate(0 {})scale({unit})", (rules.foot)(&frame));
    lines.push(format!(
        "<g transform='{moved}' font-family='sans-serif' font-size='14'>"
    ));
    for (name, x) in [
        ("sensor", 30),
        ("display", 130),
        ("controller", 230),
        ("tap", 350),
    ] {
        let mark = format!("<use href='#{name}' x='{x}' y='60'/>");
        lines.push(format!("{mark}<text x='{}' y='65'>{name}</text>", x + 10));
    }
    let said = format!("pins {pins}, taps {taps}, length {length} cm");
    lines.push(format!("<text x='30' y='100'>{said}</text>"));
    lines.extend(["</g>".to_string(), "</svg>".to_string()]);
    (rules.text)(lines.join("\n") + "\n")
}
