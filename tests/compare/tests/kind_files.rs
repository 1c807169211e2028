//! Files of three sections and of four, at the borders between the two forms: the
//! planner and lists of calls for C, the listing program and the script program
//! take the same files, refuse the others by the same number, and write the form
//! that the kinds ask for.

use compare::binding::programs::{decklist, deckplay};
use compare::check::entries::{has_kinds, Seen};
use compare::input::call_bytes::call_bytes;
use reference::devices::{refused_files, taken_files};
use reference::examples::{comb, mixed};
use reference::file::{is_plain, read, write};
use reference::generate::Random;
use reference::listing::listing;
use reference::refusals::OF_FILE;
use reference::script::hex_of;
use reference::session::{Call, State};

/// The answer of the script program to writing this file.
fn written(file: &[u8]) -> String {
    format!("file {} {}\n", file.len(), hex_of(file))
}

/// The files that are taken, those with kinds or those without.
fn taken(kinds: bool) -> Vec<Vec<u8>> {
    let mut files = taken_files();
    files.retain(|file| has_kinds(file) == kinds);
    files
}

/// Plans files, lists them, makes no call on them, and reads and writes them by a script.
fn same_everywhere(files: &[Vec<u8>]) -> Seen {
    let mut seen = Seen::default();
    let (mut script, mut answers) = (String::new(), String::new());
    for file in files {
        let full = write(&read(file).expect("a file that is taken"));
        assert_eq!(has_kinds(&full), has_kinds(file));
        let planned = seen.plan(file).and_then(|written| read(&written));
        let text = listing(&planned.expect("a deck"));
        assert_eq!(decklist(file), text, "{file:?}");
        seen.replay(file, &[], &Ok(full.clone()));
        script += &format!("read {}\nwrite\n", hex_of(file));
        answers += &format!("ok\n{}", written(&full));
    }
    assert_eq!(deckplay(script.as_bytes()), answers);
    seen
}

#[test]
fn taken_with_kinds() {
    let files = taken(true);
    assert!(files.iter().filter(|file| is_plain(file)).count() >= 4);
    assert!(same_everywhere(&files).with_kinds >= 16);
}

#[test]
fn taken_without_kinds() {
    let seen = same_everywhere(&taken(false));
    assert!(seen.given - seen.with_kinds >= 20);
}

/// The longest file is written where there is room for it, and room for it is what
/// writing has that names none.
#[test]
fn the_longest_written_by_a_script() {
    let file = write(&mixed(comb(62)));
    let script = format!(
        "read {}\nwrite 855\nwrite 856\nwrite 857\nwrite\n",
        hex_of(&file)
    );
    let right = written(&file);
    assert!(right.starts_with("file 856 "));
    let answers = format!("ok\nrefused 12\n{right}{right}{right}");
    assert_eq!(deckplay(script.as_bytes()), answers);
}

/// Reading leaves an empty deck, and every buffer keeps its bytes.
#[test]
fn refused() {
    let mut seen = Seen::default();
    let (mut script, mut answers) = (String::new(), String::new());
    let add = call_bytes(&mut Random::new(133), Call::Add(7, 9, 1));
    let empty = written(&write(&State::default()));
    for (file, number) in refused_files() {
        assert_eq!(seen.plan(&file), Err(number), "{file:?}");
        seen.replay(&file, &add, &Err(number));
        assert_eq!(decklist(&file), format!("refused {number}\n"), "{file:?}");
        script += &format!("add 1 2 2\nread {}\nwrite\n", hex_of(&file));
        answers += &format!("ok\nrefused {number}\n{empty}");
    }
    assert_eq!(deckplay(script.as_bytes()), answers);
    seen.refused.are_exactly(&OF_FILE, 8);
    assert!(seen.refused.by(15) >= 8 * 40 && seen.refused.by(2) >= 8 * 16);
}
