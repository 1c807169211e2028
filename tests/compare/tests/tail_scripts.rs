//! Tails in scripts and in lists of calls in bytes.

use compare::binding::programs::deckplay;
use compare::check::entries::Seen;
use compare::check::programs::{same_rows, same_script};
use compare::check::replays::replayed;
use compare::check::replies::Replies;
use compare::input::call_bytes::{call_bytes, calls_of, SIZE};
use reference::damage::damaged;
use reference::examples::{comb, cross, deck, mixed, CROSS};
use reference::file::{write, write_plain};
use reference::generate::{full_state, Random, KINDS};
use reference::listed::Listed;
use reference::listing::listing;
use reference::refusals::OF_FILE;
use reference::script::{call_line, hex_of};
use reference::session::{Call, State, BAD_TAIL};
use reference::tail_rows::ROWS;
use reference::tails::{with_tails, NO_TAILS, SIGNED_TAILS, TAILS};

/// The sessions with their answers as they are written down.
#[test]
fn rows() {
    same_rows(&ROWS);
}

/// A tail before each call, and a listing and a file after it.
#[test]
fn sessions() {
    let mut random = Random::new(171);
    let mut script = String::new();
    for kind in KINDS {
        for _ in 0..12 {
            let state = full_state(&mut random, kind, 8);
            script += &format!("read {}\n", hex_of(&write(&state)));
            for asked in with_tails(&mut random, kind, &state, 12) {
                let line = call_line(asked);
                script += &format!("{line}\nlist\nlength\nkinds\nrun 1\n");
            }
            script += "write\n";
        }
    }
    let answers = same_script(script.as_bytes());
    let refused = answers.lines().filter(|line| *line == "refused 16");
    assert!(refused.count() > 150);
}

/// What a listing says is two tails longer a run than without them, and adds up by its
/// own lines; the deck is not changed.
#[test]
fn listings() {
    let mut random = Random::new(172);
    let mut decks = vec![State::default(), cross(), mixed(comb(62))];
    for kind in KINDS {
        decks.extend((0..10).map(|_| full_state(&mut random, kind, 12)));
    }
    for state in decks {
        let file = hex_of(&write(&state));
        let script = format!("read {file}\ntail 500\nlist\nwrite\ntail 3\nlist\ntail 0\nlist\n");
        let answers = deckplay(script.as_bytes());
        let lines: Vec<&str> = answers.lines().collect();
        assert_eq!(lines[3].split(' ').nth(2), Some(&file[..]));
        let flat = Listed::of(&listing(&state));
        for (place, tail) in [(2, 500), (5, 3), (7, 0)] {
            let found = Listed::of(&lines[place].replace(" / ", "\n"));
            assert!(found.adds_up(&state.pins), "{found:?}");
            let more = |&[a, b, c, d, length]: &[i64; 5]| [a, b, c, d, length + 2 * tail];
            let runs: Vec<_> = flat.runs.iter().map(more).collect();
            assert_eq!((found.runs, found.taps), (runs, flat.taps.clone()));
        }
    }
}

/// A file that is read has no tail, whatever tail was set before; nor has the empty deck
/// after a file that is refused.
#[test]
fn files() {
    let mut random = Random::new(173);
    let (mut script, mut answers) = (String::new(), String::new());
    let list = |state: &State| listing(state).trim_end().replace('\n', " / ");
    for time in 0..140 {
        let state = full_state(&mut random, KINDS[time % KINDS.len()], 10);
        let number = OF_FILE[time % OF_FILE.len()];
        let tail = random.range(1, 500);
        let file = hex_of(&write(&state));
        let bad = hex_of(&damaged(&mut random, &[number]));
        script += &format!("tail {tail}\nread {file}\nlist\ntail {tail}\nwrite\nread {bad}\n");
        script += "counts\nadd 0 0\nadd 3 4\nlist\n";
        let (flat, size) = (list(&state), file.len() / 2);
        answers += &format!("ok\nok\n{flat}\nok\nfile {size} {file}\nrefused {number}\n");
        answers += "counts 0 0 0\nok\nok\ndeck 2 0 7 / kinds 7 0 0 / run 0 0 3 4 7\n";
    }
    assert_eq!(deckplay(script.as_bytes()), answers);
}

/// A call that sets the tail, byte for byte: the number 4, three bytes that are not
/// looked at, the tail without a sign, and four bytes that are not looked at. With a tail
/// of 4 or less a run to the end gives the cross its tap.
#[test]
fn bytes_of_a_tail() {
    let mut seen = Seen::default();
    let file = write_plain(&deck(&CROSS).pins);
    let (without, with) = (write(&deck(&CROSS)), write(&cross()));
    let finish = [3, 0, 0, 0, 0, 0, 0, 0, 0, 0, 0, 0];
    let tails = TAILS.into_iter().chain(NO_TAILS).chain(SIGNED_TAILS);
    for tail in tails.chain([256, 260, 65_540, 1 << 24, 4 << 8, 4 << 16, 4 << 24]) {
        for more in [[0; 3], [1, 2, 3], [255; 3]] {
            for y in [0, 4, -1, i32::MIN] {
                let four = tail.to_le_bytes();
                let set = [&[4][..], &more, &four, &y.to_le_bytes()].concat();
                assert_eq!(calls_of(&set), [Call::SetTail(tail)]);
                let pays = tail < 5 || tail > 500;
                let left = if pays { &with } else { &without };
                let calls = [&set[..], &finish].concat();
                seen.replay(&file, &calls, &Ok(left.clone()));
                seen.replay(&file, &calls[..SIZE + 11], &Ok(without.clone()));
            }
        }
    }
    assert_eq!(seen.given, 2 * 12 * (10 + 9 + 4 + 7));
}

/// The tail stays through a list, until another one is taken: the run to the end at its
/// end judges by the last one.
#[test]
fn lists_with_tails() {
    let mut random = Random::new(174);
    let (mut seen, mut replies) = (Seen::default(), Replies::default());
    for kind in KINDS {
        for _ in 0..40 {
            let state = full_state(&mut random, kind, 8);
            let mut calls = with_tails(&mut random, kind, &state, 12);
            let tail = random.pick(&[SIGNED_TAILS[1], 0, 1, 3, 500, 501]);
            calls.extend([Call::SetTail(tail), Call::Finish]);
            let bytes = calls.iter().map(|&asked| call_bytes(&mut random, asked));
            let bytes = bytes.collect::<Vec<_>>().concat();
            assert_eq!(calls_of(&bytes).len(), calls.len());
            let file = write(&state);
            let expected = replayed(&file, &bytes, &mut replies);
            seen.replay(&file, &bytes, &expected);
        }
    }
    println!("{replies}");
    assert!(replies.with_tail > 2_500 && replies.taps_with_tail > 30);
    assert!(replies.refused.by(BAD_TAIL) > 700 && replies.runs_that_add > 30);
}
