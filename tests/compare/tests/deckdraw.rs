//! The drawing program prints the picture that the reference draws, and each picture
//! holds what a picture has to by itself, read as XML.

use compare::binding::programs::{deckplay, in_pieces, in_repository as at};
use compare::check::pictures::{faults, Picture};
use compare::check::programs::{refusal_of, said, same_picture};
use compare::check::xml::read as read_xml;
use compare::input::files::{any_bytes, damaged_twice, pieces};
use compare::input::points::on_grid;
use compare::input::states::{grid, with_devices};
use reference::devices::{any_devices, decks_of_devices, refused_files};
use reference::examples::{comb, cross, deck, example, mixed, most_points, points, EXAMPLE};
use reference::file::{read, write, write_plain, LONGEST};
use reference::generate::{good_file, most_pins, Random, KINDS};
use reference::listing::listing;
use reference::picture::picture;
use reference::picture_rules::{draw_by, RIGHT};
use reference::picture_variants::{WRONG_MARKS, WRONG_PLACES};
use reference::pins::sensors;
use reference::plane::{Point, LIMIT};
use reference::refusals::{Refusals, OF_FILE};
use reference::script::hex_of;
use reference::session::{finish, State};
use std::fs;

/// The listings of the decks of files as they are, by the script program.
fn listings(files: &[Vec<u8>]) -> Vec<String> {
    let asked = |file: &Vec<u8>| format!("read {}\nlist\n", hex_of(file));
    let answers = deckplay(files.iter().map(asked).collect::<String>().as_bytes());
    let lines: Vec<&str> = answers.lines().collect();
    let pairs = lines.chunks_exact(2).map(|pair| {
        assert_eq!(pair[0], "ok");
        pair[1].replace(" / ", "\n") + "\n"
    });
    let listings: Vec<String> = pairs.collect();
    assert_eq!(listings.len(), files.len());
    listings
}

/// Draws files that are taken by both, and looks at each picture by itself.
fn draw_all(files: &[Vec<u8>]) -> Vec<Picture> {
    let mut pictures = Vec::new();
    for (file, listing) in files.iter().zip(listings(files)) {
        let text = same_picture(file).expect("a file that is taken");
        let state = read(file).expect("a file that is taken");
        assert_eq!(faults(&text, &state, &listing), [""; 0], "{}", hex_of(file));
        pictures.push(Picture::of(&text).expect("a picture"));
    }
    pictures
}

/// The full file and the plain one of a deck.
fn both(state: &State) -> [Vec<u8>; 2] {
    [write(state), write_plain(&state.pins)]
}

#[test]
fn decks_of_every_kind() {
    let mut random = Random::new(171);
    let mut files: Vec<Vec<u8>> = Vec::new();
    for kind in KINDS {
        for _ in 0..40 {
            files.push(good_file(&mut random, kind, 14));
        }
    }
    let decks = decks_of_devices(&mut random, 8, 24);
    files.extend(decks.iter().map(write));
    let pictures = draw_all(&files);
    let marks = |name: &str| {
        let all = pictures.iter().flat_map(|picture| &picture.marks);
        all.filter(|mark| mark.0 == name).count()
    };
    let counts = ["sensor", "display", "controller", "tap"].map(marks);
    println!("{} decks, marks {counts:?}", files.len());
    assert!(counts.iter().all(|&count| count > 500), "{counts:?}");
}

/// No pin, one and two of each kind, all at places of their own.
#[test]
fn small_decks() {
    let mut files = vec![write(&State::default())];
    for kind in 0..3 {
        let mut one = deck(&[(7, -3)]);
        one.pins[0].kind = kind;
        files.push(write(&one));
        for pair in [[(0, 0), (9, 0)], [(0, 0), (0, 9)], [(-1, 5), (2, -7)]] {
            let mut two = deck(&pair);
            two.pins[1].kind = kind;
            files.extend(both(&two));
        }
    }
    for state in [deck(&EXAMPLE), example(), cross(), mixed(cross())] {
        files.extend(both(&state));
    }
    let pictures = draw_all(&files);
    assert_eq!(
        (pictures[0].frame, pictures[0].numbers),
        ([440, 120], [0; 3])
    );
}

/// Full decks: 64 pins, and with as many taps as there can be.
#[test]
fn full_decks() {
    let mut random = Random::new(172);
    let mut files = Vec::new();
    for state in [comb(62), mixed(comb(62)), most_points()] {
        files.extend(both(&state));
    }
    for _ in 0..10 {
        let points = most_pins(&mut random);
        files.push(write_plain(&any_devices(&mut random, &points)));
        let state = grid(&mut random, 64, 9);
        files.extend(both(&with_devices(&mut random, state)));
    }
    let pictures = draw_all(&files);
    assert!(pictures.iter().all(|picture| picture.numbers[0] == 64));
    assert_eq!(pictures[2].numbers[1], 62);
}

/// A deck with a tap below all pins.
fn tap_outside() -> State {
    let pins = sensors(&points(&[(0, 0), (5, 1), (10, 0)]));
    State::new(pins, points(&[(5, -1)]))
}

/// Points on one line along x or along y, on a grid of even pitch, and at the limits.
#[test]
fn lines_and_limits() {
    let mut random = Random::new(173);
    let mut files = Vec::new();
    for time in 0..60 {
        let count = random.range(2, 12) as usize;
        let pitch = random.pick(&[1, 7, 250, 1_500]);
        let points = match time % 3 {
            0 => on_grid(&mut random, count, 20, 1, pitch),
            1 => on_grid(&mut random, count, 1, 20, pitch),
            _ => on_grid(&mut random, count, 5, 5, pitch),
        };
        let state = State::new(any_devices(&mut random, &points), Vec::new());
        files.extend([write_plain(&state.pins), write(&finish(&state).0)]);
    }
    let sides = [-LIMIT, 0, LIMIT];
    let all: Vec<Point> = sides
        .iter()
        .flat_map(|&x| sides.map(|y| Point::new(x, y)))
        .collect();
    for missing in 0..all.len() {
        let mut points = all.clone();
        points.remove(missing);
        files.extend(both(&finish(&State::new(sensors(&points), Vec::new())).0));
        files.push(write(&State::new(
            any_devices(&mut random, &[all[missing]]),
            Vec::new(),
        )));
    }
    let tap = State::new(
        sensors(&points(&[(0, 0), (5, 1), (10, 0)])),
        points(&[(5, -1)]),
    );
    files.push(write(&tap));
    let pictures = draw_all(&files);
    let widest = pictures.iter().map(|picture| picture.frame[0]).max();
    assert_eq!(widest, Some(440 * 2 * LIMIT));
}

#[test]
fn refused_files_have_no_picture() {
    let mut random = Random::new(174);
    let mut seen = Refusals::default();
    let longest = write(&mixed(comb(62)));
    let mut cases = [damaged_twice(&mut random, 5), refused_files()].concat();
    cases.push((Vec::new(), 1));
    for more in [1, 144, 100_000] {
        let bytes = any_bytes(&mut random, more);
        cases.push(([&longest[..], &bytes].concat(), 1));
    }
    cases.push((longest[..LONGEST - 1].to_vec(), 2));
    for (file, number) in cases {
        let line = same_picture(&file).expect_err("a file that is refused");
        assert_eq!(refusal_of(line.trim_end()), Some(number));
        seen.see(number);
    }
    seen.are_exactly(&OF_FILE, 5);
}

/// Files that come in pieces.
#[test]
fn files_in_pieces() {
    let mut random = Random::new(176);
    for kind in KINDS {
        let file = good_file(&mut random, kind, 12);
        let parts = pieces(&mut random, &file, 5);
        let text = same_picture(&file).expect("a file that is taken");
        assert_eq!(in_pieces("deckdraw", &parts), said(&Ok(text.into_bytes())));
    }
}

#[test]
fn the_samples() {
    let sample = |name| fs::read(at(&format!("samples/{name}.deck"))).expect("a sample");
    draw_all(&["devices", "example", "lane", "sixty_four"].map(sample));
}

/// Wrong versions whose pictures hold what a picture has to by itself, so that only
/// the comparison with the reference shows them.
const UNSEEN: [&str; 2] = ["other quotes", "no line feed at the end"];

/// The checks on a picture by itself see wrong versions.
#[test]
fn wrong_pictures_are_seen() {
    let mut decks = vec![
        mixed(cross()),
        example(),
        deck(&[(0, 0), (1, 5), (2, 5), (3, 0)]),
    ];
    decks.push(tap_outside());
    decks.extend(decks_of_devices(&mut Random::new(175), 6, 12));
    decks.retain(|state| state.points().len() <= 20);
    let mut unseen = Vec::new();
    for (title, change) in WRONG_PLACES.into_iter().chain(WRONG_MARKS) {
        let mut wrong = RIGHT;
        change(&mut wrong);
        let sees = |state: &State| {
            assert_eq!(faults(&picture(state), state, &listing(state)), [""; 0]);
            !faults(&draw_by(&wrong, state), state, &listing(state)).is_empty()
        };
        if !decks.iter().any(sees) {
            unseen.push(title);
        }
    }
    assert_eq!(unseen, UNSEEN);
}

/// The reader takes no text that is not balanced, quoted and one element.
#[test]
fn texts_that_are_no_xml() {
    for text in [
        "<a/>",
        "<a></a>",
        "<a b='1' c=\"2\">x<d/>y</a>\n",
        "<a-b> </a-b>",
    ] {
        assert!(read_xml(text).is_ok(), "{text}");
    }
    for text in [
        "",
        "a",
        "<a>",
        "</a>",
        "<a></b>",
        "<a><b></a></b>",
        "<a/><b/>",
        "<a/>x",
        "<a b=1/>",
        "<a b/>",
        "<a b='1/>",
        "<a b='1\"/>",
        "<a b='1'c='2'/>",
        "<a b='1' b='2'/>",
        "<a b='<'/>",
        "<a b='&'/>",
        "<a>&</a>",
        "<a>></a>",
        "<a",
        "<a><",
        "< a/>",
        "<a / >",
        "<!-- -->",
        "<1/>",
    ] {
        assert!(read_xml(text).is_err(), "{text}");
    }
}
