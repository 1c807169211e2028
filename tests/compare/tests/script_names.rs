//! Every name of a script, and words that are none, with none to nine numbers
//! behind it, and with a word among them that is no number (SPEC 9.3, 9.5): the
//! reference's answers, and an error but for the counts that the name has.

use compare::check::programs::same_answers;

/// The names, each with the counts of numbers that it is taken with.
const NAMES: [(&str, &[usize]); 23] = [
    ("add", &[2, 3]),
    ("withdraw", &[2]),
    ("round", &[0]),
    ("finish", &[0]),
    ("tail", &[1]),
    ("length", &[0]),
    ("counts", &[0]),
    ("kinds", &[0]),
    ("degree", &[2]),
    ("column", &[1]),
    ("run", &[1]),
    ("list", &[0]),
    ("write", &[0, 1]),
    ("octant", &[2]),
    ("arrow", &[5]),
    ("glyph", &[1]),
    ("rounds", &[]),
    ("arrows", &[]),
    ("kind", &[]),
    ("tails", &[]),
    ("columns", &[]),
    ("Add", &[]),
    ("1", &[]),
];

/// The most numbers that are tried behind a name.
const MOST: usize = 9;

/// A name with so many numbers behind it: 1, 2, 3 and so on.
fn words(name: &str, count: usize) -> Vec<String> {
    let numbers = (1..=count).map(|n| n.to_string());
    [name.to_string()].into_iter().chain(numbers).collect()
}

#[test]
fn every_count() {
    let (mut lines, mut taken) = (Vec::new(), Vec::new());
    for (name, counts) in NAMES {
        for count in 0..=MOST {
            lines.push(words(name, count).join(" "));
            taken.push(counts.contains(&count));
        }
    }
    let answers = same_answers(&lines);
    for ((line, answer), taken) in lines.iter().zip(answers).zip(taken) {
        assert_eq!(answer != "error", taken, "{line}: {answer}");
    }
}

/// A word that is no number at each place among the numbers, and in front of and
/// behind as many as the name has.
#[test]
fn a_word_that_is_no_number() {
    let mut lines = Vec::new();
    for (name, _) in NAMES {
        for count in 0..=MOST {
            for place in 1..=count + 1 {
                let mut words = words(name, count);
                words.insert(place, "x".to_string());
                lines.push(words.join(" "));
            }
        }
    }
    let answers = same_answers(&lines);
    assert_eq!(answers, vec!["error"; NAMES.len() * 55]);
}
