//! The picture of a deck (SPEC 9.9): the example whole, small decks by hand, and wrong
//! versions told apart.

use reference::devices::{decks_of_devices, refused_files};
use reference::examples::{cross, deck, example, mixed, points, worked, EXAMPLE};
use reference::file::{write, write_plain};
use reference::generate::Random;
use reference::picture::{draw, picture};
use reference::picture_rules::{draw_by, RIGHT};
use reference::picture_variants::{WRONG_MARKS, WRONG_PLACES};
use reference::pins::{sensors, Pin, DISPLAY};
use reference::plane::Point;
use reference::session::State;

/// The picture of the example, with a display at its lowest pin and a controller at
/// its highest: 10 cm wide and 8 high, so a unit is 10.
const WHOLE: &str = "\
<svg xmlns='http://www.w3.org/2000/svg' viewBox='0 0 4400 4400'>
<defs>
<circle id='sensor' r='2' fill='white' stroke='black'/>
<rect id='display' x='-3' y='-3' width='6' height='6' fill='blue'/>
<path id='controller' d='M-4 0L0 -4L4 0L0 4Z' fill='red'/>
<circle id='tap' r='2'/>
</defs>
<rect width='4400' height='4400' fill='white'/>
<g fill='none' stroke='gray' stroke-width='10'>
<path d='M200 3400H2200V3400'><title>5 cm</title></path>
<path d='M2200 3400H2200V200'><title>8 cm</title></path>
<path d='M2200 3400H4200V3400'><title>5 cm</title></path>
</g>
<use href='#display' transform='translate(200 3400)scale(10)'><title>display 0 0</title></use>
<use href='#sensor' transform='translate(2200 200)scale(10)'><title>sensor 5 8</title></use>
<use href='#controller' transform='translate(4200 3400)scale(10)'><title>controller 10 0</title></use>
<use href='#tap' transform='translate(2200 3400)scale(10)'><title>tap 5 0</title></use>
<g transform='translate(0 3200)scale(10)' font-family='sans-serif' font-size='14'>
<use href='#sensor' x='30' y='60'/><text x='40' y='65'>sensor</text>
<use href='#display' x='130' y='60'/><text x='140' y='65'>display</text>
<use href='#controller' x='230' y='60'/><text x='240' y='65'>controller</text>
<use href='#tap' x='350' y='60'/><text x='360' y='65'>tap</text>
<text x='30' y='100'>pins 3, taps 1, length 18 cm</text>
</g>
</svg>
";

/// The example with a display, a sensor and a controller.
fn devices() -> State {
    let mut state = example();
    (state.pins[0].kind, state.pins[2].kind) = (1, 2);
    state
}

#[test]
fn the_example_whole() {
    assert_eq!(picture(&devices()), WHOLE);
    assert_eq!(draw(&write(&devices())), Ok(WHOLE.to_string()));
    let sensors = WHOLE
        .replace("#display' t", "#sensor' t")
        .replace("#controller' t", "#sensor' t")
        .replace("display 0 0", "sensor 0 0")
        .replace("controller 10 0", "sensor 10 0");
    assert_eq!(picture(&example()), sensors);
}

/// The lines of a picture that begin so.
fn lines(state: &State, start: &str) -> Vec<String> {
    let text = picture(state);
    let lines = text.lines().filter(|line| line.starts_with(start));
    lines.map(str::to_string).collect()
}

/// A plain file is drawn as the tree of its pins, with no tap: 10 and 13 cm.
#[test]
fn a_plain_file() {
    let text = draw(&write_plain(&deck(&EXAMPLE).pins)).unwrap();
    assert_eq!(text, picture(&deck(&EXAMPLE)));
    assert_eq!(
        lines(&deck(&EXAMPLE), "<path d"),
        [
            "<path d='M200 3400H2200V200'><title>13 cm</title></path>",
            "<path d='M200 3400H4200V3400'><title>10 cm</title></path>",
        ]
    );
    assert!(text.contains(">pins 3, taps 0, length 23 cm<") && !text.contains(">tap "));
}

/// No point and one point have a unit of 1 and no run.
#[test]
fn no_point_and_one() {
    let start = "<svg xmlns='http://www.w3.org/2000/svg' viewBox='0 0 440 120'>";
    let foot = "<g transform='translate(0 0)scale(1)' font-family='sans-serif' font-size='14'>";
    let one = State::new(vec![Pin::new(Point::new(7, -3), DISPLAY)], Vec::new());
    for (state, said) in [(State::default(), "pins 0"), (one.clone(), "pins 1")] {
        assert_eq!(lines(&state, "<svg"), [start]);
        assert_eq!(lines(&state, "<g t"), [foot]);
        assert_eq!(
            lines(&state, "<g f"),
            ["<g fill='none' stroke='gray' stroke-width='1'>"]
        );
        let last = format!("<text x='30' y='100'>{said}, taps 0, length 0 cm</text>");
        assert_eq!(lines(&state, "<text"), [last]);
        assert_eq!(picture(&state).lines().count(), 18 + state.pins.len());
    }
    let mark = "<use href='#display' transform='translate(220 20)scale(1)'><title>display 7 -3</title></use>";
    assert_eq!(lines(&one, "<use href='#display' t"), [mark]);
}

/// The points on a line, along x and along y: 6 cm wide or high.
#[test]
fn points_on_a_line() {
    let level = State::new(sensors(&points(&[(-4, 5), (2, 5)])), Vec::new());
    assert!(picture(&level).contains(" viewBox='0 0 2640 720'>"));
    let path = "<path d='M120 120H2520V120'><title>6 cm</title></path>";
    assert_eq!(lines(&level, "<path d"), [path]);
    let upright = State::new(sensors(&points(&[(5, -4), (5, 2)])), Vec::new());
    assert!(picture(&upright).contains(" viewBox='0 0 2640 3120'>"));
    let path = "<path d='M1320 2520H1320V120'><title>6 cm</title></path>";
    assert_eq!(lines(&upright, "<path d"), [path]);
    assert!(picture(&upright).contains("<g transform='translate(0 2400)scale(6)' font"));
}

/// The largest picture: corners at the limits, 60,000 cm apart.
#[test]
fn the_whole_range() {
    let limits = [(-30_000, -30_000), (30_000, 30_000)];
    let state = State::new(sensors(&points(&limits)), Vec::new());
    let text = picture(&state);
    assert!(text.contains(" viewBox='0 0 26400000 31200000'>"));
    let path = "<path d='M1200000 25200000H25200000V1200000'><title>120000 cm</title></path>";
    assert_eq!(lines(&state, "<path d"), [path]);
    let mark = "translate(1200000 25200000)scale(60000)'><title>sensor -30000 -30000</title></use>";
    assert!(text.contains(mark));
}

/// A deck with a tap below all pins, at which three runs end.
fn tap_outside() -> State {
    let pins = sensors(&points(&[(0, 0), (5, 1), (10, 0)]));
    State::new(pins, points(&[(5, -1)]))
}

/// The box is around the tap too: 10 cm wide and 2 high.
#[test]
fn a_tap_outside_the_pins() {
    let state = tap_outside();
    let text = draw(&write(&state)).expect("a sound deck");
    assert_eq!(text, picture(&state));
    assert!(text.contains(" viewBox='0 0 4400 2000'>"));
    assert_eq!(
        lines(&state, "<path d"),
        [
            "<path d='M200 600H2200V1000'><title>6 cm</title></path>",
            "<path d='M2200 1000H2200V200'><title>2 cm</title></path>",
            "<path d='M2200 1000H4200V600'><title>6 cm</title></path>",
        ]
    );
    let mark =
        "<use href='#tap' transform='translate(2200 1000)scale(10)'><title>tap 5 -1</title></use>";
    assert_eq!(lines(&state, "<use href='#tap' t"), [mark]);
}

#[test]
fn refused_files_have_no_picture() {
    for (file, number) in refused_files() {
        assert_eq!(draw(&file), Err(format!("refused {number}\n")));
    }
    assert_eq!(draw(b""), Err("refused 1\n".to_string()));
}

/// Small decks: one whose runs would stand in another order by their higher ends, and
/// others that tests name.
fn small_decks() -> Vec<State> {
    let order = deck(&[(0, 0), (1, 5), (2, 5), (3, 0)]);
    let mut decks = vec![
        order,
        tap_outside(),
        devices(),
        cross(),
        mixed(cross()),
        deck(&EXAMPLE),
    ];
    decks.extend(worked().into_iter().map(|(_, state, _)| state));
    decks
}

#[test]
fn the_rules_one_by_one() {
    let mut decks = small_decks();
    decks.extend(decks_of_devices(&mut Random::new(141), 60, 16));
    for state in decks {
        assert_eq!(draw_by(&RIGHT, &state), picture(&state));
    }
}

/// Each wrong version differs from the right picture on a small deck and on a deck
/// drawn at random.
#[test]
fn wrong_versions_show() {
    let small = small_decks();
    let mut random = decks_of_devices(&mut Random::new(142), 30, 12);
    random.retain(|state| state.points().len() <= 20);
    let drawn = |decks: Vec<State>| -> Vec<(State, String)> {
        let pair = |state: State| (state.clone(), picture(&state));
        decks.into_iter().map(pair).collect()
    };
    let (small, random) = (drawn(small), drawn(random));
    for (title, change) in WRONG_PLACES.into_iter().chain(WRONG_MARKS) {
        let mut wrong = RIGHT;
        change(&mut wrong);
        let shown = |decks: &[(State, String)]| {
            let differs = |(state, text): &&(State, String)| draw_by(&wrong, state) != *text;
            decks.iter().filter(differs).count()
        };
        let (by_hand, at_random) = (shown(&small), shown(&random));
        println!(
            "{title}: {by_hand} small decks, {at_random} of {}",
            random.len()
        );
        assert!(by_hand > 0 && at_random > 0, "{title}");
    }
}
