//! The script interpreter.

use reference::generate::Random;
use reference::refusals::{refused_scripts, Refusals, OF_SCRIPT};
use reference::script::{bytes_of, hex_of, play};

/// Each line of the script beside its answer.
fn answers(pairs: &[(&str, &str)]) {
    let script: String = pairs.iter().map(|(line, _)| format!("{line}\n")).collect();
    let want: String = pairs
        .iter()
        .map(|(_, answer)| format!("{answer}\n"))
        .collect();
    assert_eq!(play(script.as_bytes()), want);
}

const EXAMPLE: &str = "4445434b03001e0000000c0000002a000000040000002e00000006000000\
                       00000000050008000a00000005000000000101020103";
const EMPTY: &str = "4445434b03001e000000000000001e000000000000001e00000000000000";

#[test]
fn the_example_deck() {
    answers(&[
        ("counts", "counts 0 0 0"),
        ("length", "length 0"),
        ("kinds", "kinds 0 0 0"),
        ("list", "deck 0 0 0 / kinds 0 0 0"),
        ("run 0", "no run"),
        ("round", "finished"),
        ("finish", "rounds 0"),
        ("add 0 0", "ok"),
        ("add 5 8", "ok"),
        ("add 10 0", "ok"),
        ("length", "length 23"),
        ("round", "tap 5 0 fall 5"),
        ("round", "finished"),
        ("counts", "counts 3 1 3"),
        ("run 1", "run 5 0 5 8 8"),
        ("run 3", "no run"),
        ("degree 5 0", "degree 3"),
        ("degree 99999 0", "degree 0"),
        (
            "list",
            "deck 3 1 18 / kinds 18 0 0 / tap 5 0 / run 0 0 5 0 5 / run 5 0 5 8 8 / \
             run 5 0 10 0 5",
        ),
        ("kinds", "kinds 18 0 0"),
        ("write", &format!("file 52 {EXAMPLE}")),
        ("write 52", &format!("file 52 {EXAMPLE}")),
        ("write 51", "refused 12"),
        ("write 2147483647", &format!("file 52 {EXAMPLE}")),
    ]);
}

#[test]
fn refusals_in_a_session() {
    answers(&[
        ("add 30001 0", "refused 7"),
        ("add 0 -30001", "refused 7"),
        ("add 30000 -30000", "ok"),
        ("add 30000 -30000", "refused 8"),
        ("withdraw 0 0", "refused 9"),
        ("withdraw -2147483648 2147483647", "refused 9"),
        ("counts", "counts 1 0 0"),
        ("withdraw 30000 -30000", "ok"),
        ("write", &format!("file 30 {EMPTY}")),
        ("write 29", "refused 12"),
        ("write 0", "refused 12"),
    ]);
}

/// The kind is named after the place, or left out for a sensor.
#[test]
fn kinds() {
    let sensors =
        "4445434b03001e000000080000002600000000000000260000000200000000000000090000000001";
    let kinds = "4445434b04002600000008000000\
                 2e000000000000002e0000000200000030000000020000000000000009000000\
                 00010102";
    answers(&[
        ("add 9 0 2", "ok"),
        ("add 0 0 1", "ok"),
        ("write", &format!("file 50 {kinds}")),
        ("write 49", "refused 12"),
        ("add 5 5 3", "refused 15"),
        ("add 5 5 300", "refused 15"),
        ("add 5 5 65536", "refused 15"),
        ("add 5 5 2147483647", "refused 15"),
        ("add 0 0 3", "refused 15"),
        ("add 30001 0 3", "refused 7"),
        ("add 0 0 2", "refused 8"),
        ("add 30001 0 -1", "error"),
        ("withdraw 0 0 1", "error"),
        ("withdraw 0 0", "ok"),
        ("withdraw 9 0", "ok"),
        ("add 0 0", "ok"),
        ("add 9 0 0", "ok"),
        ("write", &format!("file 40 {sensors}")),
        (&format!("read {kinds}"), "ok"),
        ("list", "deck 2 0 9 / kinds 0 0 9 / run 0 0 9 0 9"),
        ("kinds", "kinds 0 0 9"),
        ("write", &format!("file 50 {kinds}")),
        (&format!("read {}03", &kinds[..98]), "refused 15"),
        ("counts", "counts 0 0 0"),
    ]);
}

/// Every number but 11, which no script can cause: a refused call or writing
/// leaves the deck, a refused file leaves an empty one.
#[test]
fn every_refusal() {
    let mut seen = Refusals::default();
    for (script, answers, number) in refused_scripts(&mut Random::new(62)) {
        assert_eq!(play(script.as_bytes()), answers, "{script}");
        seen.see(number);
    }
    seen.are_exactly(&OF_SCRIPT, 19);
}

#[test]
fn reading() {
    answers(&[
        (&format!("read {EXAMPLE}"), "ok"),
        ("finish", "rounds 0"),
        ("counts", "counts 3 1 3"),
        (&format!("read {EMPTY}"), "ok"),
        ("counts", "counts 0 0 0"),
        (&format!("read {EXAMPLE}"), "ok"),
        ("read -", "refused 1"),
        ("counts", "counts 0 0 0"),
        (&format!("read {EXAMPLE}"), "ok"),
        ("read 0", "error"),
        ("read 0g", "error"),
        ("read", "error"),
        ("counts", "counts 3 1 3"),
        (&format!("read {}", EXAMPLE.to_uppercase()), "ok"),
        (&format!("read {EXAMPLE}00"), "refused 2"),
        (&format!("read {}", "0".repeat(1_994)), "refused 1"),
    ]);
}

#[test]
fn octants_and_errors() {
    answers(&[
        ("octant 1 0", "octant 0"),
        ("octant 1 1", "octant 1"),
        ("octant 0 1", "octant 2"),
        ("octant -1 1", "octant 3"),
        ("octant -2147483648 -2147483648", "octant 5"),
        ("octant 0 0", "error"),
        ("octant 2147483648 0", "error"),
        ("add 1", "error"),
        ("add 1 2 0 0", "error"),
        ("add 1 2 -1", "error"),
        ("add 1 2 x", "error"),
        ("add 1 2 +1", "error"),
        ("add 1 2 2147483648", "error"),
        ("add 1 x 3", "error"),
        ("add 1 x", "error"),
        ("add +1 2", "error"),
        ("add 2147483648 2", "error"),
        ("add 1.0 2", "error"),
        ("run -1", "error"),
        ("write -1", "error"),
        ("Round", "error"),
        (" ", "error"),
        ("round now", "error"),
        ("kinds 0", "error"),
        ("kinds 0 0 0", "error"),
        ("kinds x", "error"),
        ("kind", "error"),
        ("Kinds", "error"),
        ("counts", "counts 0 0 0"),
    ]);
}

#[test]
fn arrows_and_glyphs() {
    answers(&[
        ("arrow 0 0 1000 0 1000", "arrow 0 E"),
        ("arrow -3 4 -2 5 1", "arrow 1 N"),
        ("arrow 0 0 -999 15999 1000", "arrow 2 n"),
        ("arrow 5 5 3 7 1", "arrow 3 W"),
        ("arrow 32767 0 32752 0 1", "arrow 4 w"),
        ("arrow 0 0 -5 -5 2", "arrow 5 S"),
        ("arrow 0 32767 0 16768 1000", "arrow 6 s"),
        ("arrow -32768 0 -32753 -15 1", "arrow 7 e"),
        ("arrow\t-0 007 -999 1006\r1000", "arrow 8 ."),
        ("arrow 0 0 16000 0 1000", "refused 14"),
        ("arrow -32768 0 32767 0 1000", "refused 14"),
        ("arrow 0 0 0 0 0", "refused 13"),
        ("arrow 0 0 0 0 -2147483648", "refused 13"),
        ("arrow -32768 0 32767 0 1001", "refused 13"),
        ("glyph 0", "glyph E"),
        ("glyph 008", "glyph ."),
        ("glyph 9", "glyph ?"),
        ("glyph -1", "glyph ?"),
        ("glyph -2147483648", "glyph ?"),
        ("glyph 2147483647", "glyph ?"),
        ("counts", "counts 0 0 0"),
    ]);
}

#[test]
fn no_arrows_and_no_glyphs() {
    answers(&[
        ("arrow 32768 0 0 0 1", "error"),
        ("arrow 0 -32769 0 0 1", "error"),
        ("arrow 0 0 32768 0 1", "error"),
        ("arrow 0 0 0 -32769 1", "error"),
        ("arrow 32768 0 0 0 0", "error"),
        ("arrow 0 0 0 0 2147483648", "error"),
        ("arrow 0 0 0 0 x", "error"),
        ("arrow 0 0 +1 0 1", "error"),
        ("arrow 0 0 0 0", "error"),
        ("arrow 0 0 0 0 1 1", "error"),
        ("arrow", "error"),
        ("Arrow 0 0 0 0 1", "error"),
        ("glyph", "error"),
        ("glyph E", "error"),
        ("glyph 1 2", "error"),
        ("glyph 2147483648", "error"),
        ("glyph -2147483649", "error"),
        ("counts", "counts 0 0 0"),
    ]);
}

#[test]
fn lines() {
    assert_eq!(play(b""), "");
    assert_eq!(play(b"\n\n# add 1 1\n#\ncounts"), "counts 0 0 0\n");
    assert_eq!(play(b"counts\r\n  counts  \n"), "counts 0 0 0\n".repeat(2));
    assert_eq!(play(b"\xff\ncounts\n"), "error\ncounts 0 0 0\n");
    let long = |length: usize| format!("add 1 1{}\nlength\n", " ".repeat(length - 7));
    assert_eq!(play(long(4_000).as_bytes()), "ok\nlength 0\n");
    assert_eq!(play(long(4_001).as_bytes()), "error\nlength 0\n");
    let comment = format!("#{}\n", "x".repeat(4_000));
    assert_eq!(play(comment.as_bytes()), "error\n");
    // A file of any length that a line can hold is read, and one over the limit refused as a file.
    for bytes in [857, 1_000, 1_997] {
        let line = format!("read {}\n", "00".repeat(bytes));
        assert_eq!(play(line.as_bytes()), "refused 1\n");
    }
}

#[test]
fn hexadecimal_digits() {
    let all: Vec<u8> = (0..=255).collect();
    assert_eq!(bytes_of(&hex_of(&all)), Some(all));
    assert_eq!(hex_of(&[]), "-");
    assert_eq!(bytes_of("-"), Some(Vec::new()));
    assert_eq!(bytes_of("+f"), None);
    assert_eq!(bytes_of("0aFf"), Some(vec![10, 255]));
}
