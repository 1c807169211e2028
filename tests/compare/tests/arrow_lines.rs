//! The lines of the script program for arrows and glyphs (SPEC 9.3, 9.5), and the
//! glyphs by the library for C (SPEC 3.5): the reference's answers, word by word.

use compare::binding::display;
use compare::check::programs::same_answers;
use reference::arrows::glyph;

/// Words for numbers of 16 bits; for others of 32 bits; and for none of these.
const OF_16_BITS: [&str; 4] = ["32767", "-32768", "-0", "0000000000000000000000007"];
const OF_32_BITS: [&str; 6] = [
    "32768",
    "-32769",
    "65536",
    "0000000000000000000032768",
    "2147483647",
    "-2147483648",
];
const OTHER_WORDS: [&str; 11] = [
    "2147483648",
    "-2147483649",
    "4294967297",
    "18446744073709551617",
    "-",
    "--1",
    "+1",
    "1x",
    "x",
    "1.0",
    "0x1",
];

/// Each of the five numbers of a line in turn is replaced by each of the words.
#[test]
fn words_of_an_arrow() {
    let (mut lines, mut right) = (Vec::new(), Vec::new());
    for place in 0..5 {
        for (words, taken) in [
            (&OF_16_BITS[..], true),
            (&OF_32_BITS, place == 4),
            (&OTHER_WORDS, false),
        ] {
            for word in words {
                let mut numbers = ["0", "0", "0", "0", "7"];
                numbers[place] = word;
                lines.push(format!("arrow {}", numbers.join(" ")));
                right.push(taken);
            }
        }
    }
    let answers = same_answers(&lines);
    let taken: Vec<bool> = answers.iter().map(|answer| answer != "error").collect();
    assert_eq!(taken, right);
}

/// Lines that are nearly those of an arrow or a glyph; the first two have a pitch
/// that is refused too.
const OTHER_LINES: [&str; 17] = [
    "arrow 32768 0 0 0 0",
    "arrow 0 0 0 -32769 1001",
    "arrows 1 1 1 1 1",
    "Arrow 1 1 1 1 1",
    "arro w 1 1 1 1",
    "glyph",
    "glyph 1 1",
    "glyph E",
    "glyph .",
    "glyphs 1",
    "Glyph 1",
    "glyph +1",
    "glyph 1.0",
    "glyph -",
    "glyph 2147483648",
    "glyph -2147483649",
    "glyph 4294967295",
];

/// Too few numbers and too many, and the lines above.
#[test]
fn lines_that_are_no_arrow() {
    let counts = (0..10).filter(|&count| count != 5);
    let lines = counts.map(|count| format!("arrow{}", " 1".repeat(count)));
    let others = OTHER_LINES.map(str::to_string);
    let lines: Vec<String> = lines.chain(others).collect();
    assert_eq!(same_answers(&lines), vec!["error"; 9 + 17]);
}

/// The numbers that have glyphs, and others: also those that would have one if
/// they were cut to 8 bits or to 16, and the ends of 32 bits.
#[test]
fn glyphs() {
    let mut numbers: Vec<u32> = (0..=1_000).chain(65_530..65_560).collect();
    numbers.extend([
        i32::MAX as u32,
        1 << 31,
        (1 << 31) + 8,
        u32::MAX - 8,
        u32::MAX,
    ]);
    let mut shown = String::new();
    for &n in &numbers {
        let found = char::from(display::glyph(n));
        assert_eq!(found, glyph(n.into()), "{n}");
        shown.push(found);
    }
    let others = numbers.len() - 9;
    assert_eq!(shown, "ENnWwSse.".to_string() + &"?".repeat(others));
    let whole = (-20..=300).chain([i32::MIN, i32::MIN + 1, 65_536, 65_544, i32::MAX]);
    let lines: Vec<String> = whole.map(|n| format!("glyph {n}")).collect();
    let answers = same_answers(&lines);
    let known: Vec<&String> = answers.iter().filter(|line| *line != "glyph ?").collect();
    assert_eq!(known.len(), 9);
    assert_eq!((&answers[20][..], &answers[28][..]), ("glyph E", "glyph ."));
}
