//! Mistakes with tails that tempt: planners that differ from SPEC in one rule on tails.
//! Each answers the lines of scripts, and the rows of the tests must tell each from the
//! right one.

use crate::rows::{right, Player};
use crate::script::number;
use crate::session::{finish, length, round, State};
use crate::tail_rules::{by_rule, rule};

/// Each mistake.
pub const WRONG_PLAYERS: [(&str, Player); 38] = [
    ("one tail a run", |s, line| {
        by_rule(rule(1, 1, 1, 1, 1, 1), s, line)
    }),
    ("one tail in the length", |s, line| {
        by_rule(rule(1, 2, 2, 2, 2, 1), s, line)
    }),
    ("flat length", |s, line| {
        by_rule(rule(0, 2, 2, 2, 2, 1), s, line)
    }),
    ("one tail in the line of a run", |s, line| {
        by_rule(rule(2, 1, 2, 2, 2, 1), s, line)
    }),
    ("flat line of a run", |s, line| {
        by_rule(rule(2, 0, 2, 2, 2, 1), s, line)
    }),
    ("flat kinds", |s, line| {
        by_rule(rule(2, 2, 0, 2, 2, 1), s, line)
    }),
    ("one tail in the kinds", |s, line| {
        by_rule(rule(2, 2, 1, 2, 2, 1), s, line)
    }),
    ("flat bar of a round", |s, line| {
        by_rule(rule(2, 2, 2, 0, 2, 1), s, line)
    }),
    ("one tail in the bar of a round", |s, line| {
        by_rule(rule(2, 2, 2, 1, 2, 1), s, line)
    }),
    ("three tails in the bar of a round", |s, line| {
        by_rule(rule(2, 2, 2, 3, 2, 1), s, line)
    }),
    ("flat fall", |s, line| {
        by_rule(rule(2, 2, 2, 2, 0, 1), s, line)
    }),
    ("one tail in the fall", |s, line| {
        by_rule(rule(2, 2, 2, 2, 1, 1), s, line)
    }),
    ("a saving of 0 is enough", |s, line| {
        by_rule(rule(2, 2, 2, 2, 2, 0), s, line)
    }),
    ("a saving of 1 is not enough", |s, line| {
        by_rule(rule(2, 2, 2, 2, 2, 2), s, line)
    }),
    ("lost by adding", |s, line| {
        losing(s, line, |line, _| line.starts_with("add"))
    }),
    ("lost by adding on a tap", lost_on_tap),
    ("lost by withdrawing", |s, line| {
        losing(s, line, |line, _| line.starts_with("withdraw"))
    }),
    ("lost by a round that adds", |s, line| {
        losing(s, line, |_, answer| answer.starts_with("tap"))
    }),
    ("lost by a round that is finished", |s, line| {
        losing(s, line, |_, answer| answer == "finished")
    }),
    ("lost by a run to the end", |s, line| {
        losing(s, line, |line, _| line == "finish")
    }),
    ("lost by a refused call", |s, line| {
        losing(s, line, |_, answer| answer.starts_with("refused"))
    }),
    ("lost by a refused tail", |s, line| {
        losing(s, line, |_, answer| answer == "refused 16")
    }),
    ("lost by writing", |s, line| {
        losing(s, line, |line, _| line == "write")
    }),
    ("setting drops the taps", |s, line| {
        setting(s, line, |s| s.steiner.clear())
    }),
    ("setting takes out taps that do not pay", |s, line| {
        setting(s, line, without_loss)
    }),
    ("setting makes a round", |s, line| {
        setting(s, line, |s| *s = round(s).0)
    }),
    ("setting runs to the end", |s, line| {
        setting(s, line, |s| *s = finish(s).0)
    }),
    ("501 is taken", |s, line| limited(s, line, 501, 16)),
    ("500 is refused", |s, line| limited(s, line, 499, 16)),
    ("refused by 15", |s, line| limited(s, line, 500, 15)),
    ("refused by 11", |s, line| limited(s, line, 500, 11)),
    ("a refused tail is set", |s, line| {
        given(s, line, |_, tail| tail)
    }),
    ("a refused tail sets the greatest", |s, line| {
        given(s, line, |_, tail| tail.min(500))
    }),
    ("a tail of 16 bits", |s, line| {
        given(s, line, |_, tail| tail % 65_536)
    }),
    ("tails add up", |s, line| {
        given(s, line, |now, tail| now + tail)
    }),
    ("the first tail stays", |s, line| {
        given(s, line, |now, tail| if now == 0 { tail } else { now })
    }),
    ("kept by reading", |s, line| keeping(s, line, "ok")),
    ("kept by a refused file", |s, line| {
        keeping(s, line, "refused 1")
    }),
];

/// The tail is lost after lines and answers of some sort.
fn losing(state: &mut State, line: &str, loses: fn(&str, &str) -> bool) -> String {
    let answer = right(state, line);
    if loses(line, &answer) {
        state.tail = 0;
    }
    answer
}

fn lost_on_tap(state: &mut State, line: &str) -> String {
    let taps = state.steiner.len();
    let answer = right(state, line);
    if line.starts_with("add") && answer == "ok" && state.steiner.len() < taps {
        state.tail = 0;
    }
    answer
}

/// Setting the tail makes a further change.
fn setting(state: &mut State, line: &str, change: fn(&mut State)) -> String {
    let answer = right(state, line);
    if line.starts_with("tail") && answer == "ok" {
        change(state);
    }
    answer
}

/// Takes out the lowest tap without which the tree is no longer, as long as there is one.
fn without_loss(state: &mut State) {
    let without = |place: usize| {
        let mut fewer = state.clone();
        fewer.steiner.remove(place);
        fewer
    };
    let fewer = (0..state.steiner.len()).map(without);
    let found = fewer
        .into_iter()
        .find(|fewer| length(fewer) <= length(state));
    if let Some(fewer) = found {
        *state = fewer;
        without_loss(state);
    }
}

/// The tail that a line sets, if it sets one that is no error.
fn tail_of(line: &str) -> Option<u64> {
    u64::try_from(number(line.strip_prefix("tail ")?)?).ok()
}

/// Another greatest tail, or another number for one that is above it.
fn limited(state: &mut State, line: &str, most: u64, number: u8) -> String {
    match tail_of(line) {
        Some(tail) if tail <= most => {
            state.tail = tail;
            "ok".to_string()
        }
        Some(_) => format!("refused {number}"),
        None => right(state, line),
    }
}

/// Another tail than the one given, from the one before and the one given.
fn given(state: &mut State, line: &str, set: fn(u64, u64) -> u64) -> String {
    let now = state.tail;
    let answer = right(state, line);
    if let Some(tail) = tail_of(line) {
        state.tail = set(now, tail);
    }
    answer
}

/// Reading keeps the tail where it has this answer.
fn keeping(state: &mut State, line: &str, kept: &str) -> String {
    let tail = state.tail;
    let answer = right(state, line);
    if line.starts_with("read") && answer == kept {
        state.tail = tail;
    }
    answer
}
