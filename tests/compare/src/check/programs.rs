//! The proved programs beside the reference. Each function here panics where
//! they print something else.

use crate::binding::entries::plan;
use crate::binding::programs::{deckdraw, decklist, deckpack, deckplan, deckplay, Said};
use reference::file::{LONGEST, SHORTEST};
use reference::listing::list_program;
use reference::packing::pack;
use reference::picture::draw;
use reference::rows::Row;
use reference::script::hex_of;
use reference::script::play;

/// Lists a file by both. Returns what they print.
pub fn same_listing(file: &[u8]) -> String {
    let expected = list_program(file);
    assert_eq!(decklist(file), expected, "{file:?}");
    expected
}

/// Plays a script by both. Returns the answers.
pub fn same_script(script: &[u8]) -> String {
    let expected = play(script);
    assert_eq!(deckplay(script), expected);
    expected
}

/// Plays sessions, which have the answers that are written down with them.
pub fn same_rows(rows: &[Row]) {
    for (title, lines) in rows {
        let script: String = lines.iter().map(|(line, _)| format!("{line}\n")).collect();
        let answers: String = lines.iter().map(|(_, said)| format!("{said}\n")).collect();
        assert_eq!(deckplay(script.as_bytes()), answers, "{title}");
    }
}

/// What a program writes, or the line by which it says why not.
pub type Answer = Result<Vec<u8>, String>;

/// The answer to standard output, or the line to standard error; nothing to the other.
pub fn said(answer: &Answer) -> Said {
    let (out, err) = match answer {
        Ok(bytes) => (bytes.clone(), String::new()),
        Err(line) => (Vec::new(), line.clone()),
    };
    Said { out, err }
}

/// Packs a text, which gives what is expected.
pub fn packs_to(text: &[u8], expected: &Answer) {
    let start = String::from_utf8_lossy(&text[..text.len().min(300)]);
    let length = text.len();
    assert_eq!(deckpack(text), said(expected), "{length} bytes: {start:?}");
}

/// Packs a text by both. Returns the file or the line on the first fault.
pub fn same_packing(text: &[u8]) -> Answer {
    let expected = pack(text);
    packs_to(text, &expected);
    expected
}

/// Plans a file by the program and by the entry for C. Returns the file or the
/// line that names the refusal.
pub fn same_plan(file: &[u8]) -> Answer {
    let mut buffer = [0; LONGEST];
    let expected = match plan(file, &mut buffer) {
        length @ SHORTEST.. => Ok(buffer[..length].to_vec()),
        number => Err(format!("refused {number}\n")),
    };
    assert_eq!(deckplan(file), said(&expected), "{}", hex_of(file));
    expected
}

/// Draws a file by both. Returns the picture or the line that names the refusal.
pub fn same_picture(file: &[u8]) -> Result<String, String> {
    let expected = draw(file);
    let answer = expected.clone().map(String::into_bytes);
    let found = deckdraw(file);
    same_lines(
        &String::from_utf8_lossy(&found.out),
        expected.as_deref().unwrap_or(""),
        |i| format!("line {} of the picture of {}", i + 1, hex_of(file)),
    );
    assert_eq!(found, said(&answer), "{}", hex_of(file));
    expected
}

/// Compares what was printed with what is expected, line by line; `name` says in
/// a failure which line it is.
pub fn same_lines(found: &str, expected: &str, name: impl Fn(usize) -> String) {
    for (i, (one, other)) in found.lines().zip(expected.lines()).enumerate() {
        assert_eq!(one, other, "{}", name(i));
    }
    assert!(found == expected, "more lines or fewer, or other ends");
}

/// Plays lines by both, as one script in which each has an answer. Returns the
/// answers.
pub fn same_answers(lines: &[String]) -> Vec<String> {
    let script = lines.join("\n");
    let expected = play(script.as_bytes());
    let answers: Vec<String> = expected.lines().map(str::to_string).collect();
    assert_eq!(answers.len(), lines.len());
    same_lines(&deckplay(script.as_bytes()), &expected, |i| {
        lines[i].clone()
    });
    answers
}

/// The number of the refusal that a line says, if it says one.
pub fn refusal_of(line: &str) -> Option<u8> {
    let number = line.strip_prefix("refused ")?;
    Some(number.parse().expect("the number of a refusal"))
}
