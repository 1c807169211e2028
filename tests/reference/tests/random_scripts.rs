//! Scripts at random, beside the files and the listings that they lead to.

use reference::file::{read, write};
use reference::generate::{Random, KINDS};
use reference::listing::list_program;
use reference::pins::{Pin, CONTROLLER};
use reference::plane::Point;
use reference::random_scripts::script;
use reference::script::{bytes_of, hex_of, play};
use reference::session::State;

/// The beginnings of the answers that a random script has to bring about.
const WORDS: [&str; 25] = [
    "ok",
    "refused 7",
    "refused 8",
    "refused 9",
    "refused 12",
    "refused 13",
    "refused 14",
    "refused 15",
    "refused 16",
    "tap",
    "finished",
    "rounds",
    "length",
    "counts",
    "kinds",
    "run",
    "no run",
    "degree",
    "column",
    "none",
    "octant",
    "arrow",
    "glyph",
    "deck",
    "file",
];

/// The listing that the last file of a script gives is the last listing, which is one
/// of no tail, as files have none.
#[test]
fn random_scripts() {
    let mut random = Random::new(61);
    let mut all = String::new();
    for kind in KINDS {
        for _ in 0..60 {
            let text = script(&mut random, kind, 10) + "tail 0\nfinish\nlist\nwrite\n";
            let answers = play(text.as_bytes());
            all += &answers;
            let lines: Vec<&str> = answers.lines().collect();
            assert_eq!(lines.len(), text.lines().count());
            let words: Vec<&str> = lines[lines.len() - 1].split(' ').collect();
            let bytes = bytes_of(words[2]).unwrap();
            assert_eq!(words[1], bytes.len().to_string());
            let listed = list_program(&bytes).trim_end().replace('\n', " / ");
            assert_eq!(lines[lines.len() - 2], listed);
            assert!(lines
                .iter()
                .all(|line| *line != "error" || text.contains("octant 0 0")));
        }
    }
    for word in WORDS {
        let count = all.lines().filter(|line| line.starts_with(word)).count();
        assert!(count > 10, "{count} answers {word}");
    }
}

#[test]
fn a_script_and_a_file_agree() {
    let pin = Pin::new(Point::new(3, -4), CONTROLLER);
    let state = State::new(vec![pin], Vec::new());
    let answer = format!("file 43 {}\n", hex_of(&write(&state)));
    assert_eq!(play(b"add 3 -4 2\nwrite\n"), format!("ok\n{answer}"));
    assert_eq!(read(&write(&state)), Ok(state));
}
