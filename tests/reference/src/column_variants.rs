//! Mistakes with columns that tempt: each differs from SPEC in one rule. The rows of the
//! tests must tell each from the right answers.

use crate::candidates::{best_candidate, best_in_column, candidates};
use crate::column_rules::*;
use crate::plane::{Point, LIMIT};
use crate::rows::{right, Player};
use crate::session::{prune, round, with_steiner, State};

/// Each mistake in the answer.
pub const WRONG_COLUMNS: [(&str, Column); 45] = [
    ("a place held saves 0", |s, x| {
        first(with_held(s, x, &s.points()))
    }),
    ("the place of a pin saves 0", |s, x| {
        first(with_held(s, x, &s.places()))
    }),
    ("the place of a tap saves 0", |s, x| {
        first(with_held(s, x, &s.steiner))
    }),
    ("lines of pins alone", |s, x| {
        first(column(s, x, &candidates(&s.places())))
    }),
    ("an x of pins alone", |s, x| {
        best_in_column(s, x).filter(|_| s.places().iter().any(|pin| pin.x == x))
    }),
    ("a y of pins alone", |s, x| {
        among(s, x, |s, place| {
            s.places().iter().any(|pin| pin.y == place.y)
        })
    }),
    ("between points of the column", |s, x| {
        among(s, x, |s, place| {
            let line: Vec<Point> = s.points().into_iter().filter(|p| p.x == place.x).collect();
            line.first() < Some(&place) && Some(&place) < line.last()
        })
    }),
    ("every x in range is a line", |s, x| {
        (-LIMIT..=LIMIT)
            .contains(&x)
            .then(|| first(on_any_line(s, x)))?
    }),
    ("every x is a line", |s, x| first(on_any_line(s, x))),
    ("a line that is all held has its lowest point", |s, x| {
        let held = || s.points().into_iter().find(|point| point.x == x);
        best_in_column(s, x).or_else(|| held().map(|point| (point, 0)))
    }),
    ("the next column where there is none", |s, x| {
        let next = candidates(&s.points())
            .into_iter()
            .find(|place| place.x >= x);
        best_in_column(s, next?.x)
    }),
    ("the column on the right", |s, x| best_in_column(s, x + 1)),
    ("the column on the left", |s, x| best_in_column(s, x - 1)),
    ("a row for a column", |s, x| {
        let all = tried(s, &candidates(&s.points()));
        first(all.into_iter().filter(|(place, _)| place.y == x).collect())
    }),
    ("x and y exchanged", |s, x| {
        let (place, saved) = best_in_column(s, x)?;
        Some((Point::new(place.y, place.x), saved))
    }),
    ("x of 16 bits", |s, x| best_in_column(s, (x as i16).into())),
    ("x without its sign", |s, x| best_in_column(s, x.abs())),
    ("no column below 0", |s, x| {
        best_in_column(s, x).filter(|_| x >= 0)
    }),
    ("the round's choice for every column", |s, _| {
        best_candidate(s)
    }),
    ("the column of the round's choice alone", |s, x| {
        best_candidate(s).filter(|(place, _)| place.x == x)
    }),
    ("none on a deck that is finished", |s, x| {
        best_in_column(s, x).filter(|_| best_candidate(s).is_some())
    }),
    ("savings above 0 alone", |s, x| {
        best_in_column(s, x).filter(|(_, saved)| *saved > 0)
    }),
    ("savings from 0 on alone", |s, x| {
        best_in_column(s, x).filter(|(_, saved)| *saved >= 0)
    }),
    ("no saving below 0", |s, x| {
        saying(s, x, |_, saved| saved.max(0))
    }),
    ("a saving without its sign", |s, x| {
        saying(s, x, |_, saved| saved.abs())
    }),
    ("a saving with the other sign", |s, x| {
        saying(s, x, |_, saved| -saved)
    }),
    ("a saving of 16 bits", |s, x| {
        saying(s, x, |_, saved| (saved as i16).into())
    }),
    ("a saving of 32 bits without a sign", |s, x| {
        saying(s, x, |_, saved| (saved as u32).into())
    }),
    ("a flat saving", |s, x| {
        saying(s, x, |tail, saved| saved + 2 * tail)
    }),
    ("one tail", |s, x| saying(s, x, |tail, saved| saved + tail)),
    ("three tails", |s, x| {
        saying(s, x, |tail, saved| saved - tail)
    }),
    ("tails that are saved", |s, x| {
        saying(s, x, |tail, saved| saved + 4 * tail)
    }),
    ("the tails of the tree with it alone", |s, x| {
        best_in_column(s, x).map(|(place, saved)| (place, saved - tails(s)))
    }),
    ("the tails of the tree now alone", |s, x| {
        let more = tails(s) + 2 * s.tail as i64;
        best_in_column(s, x).map(|(place, saved)| (place, saved + more))
    }),
    ("the tree of the pins alone", |s, x| {
        let pins = State {
            steiner: Vec::new(),
            ..s.clone()
        };
        first(column(&pins, x, &candidates(&s.points())))
    }),
    ("the fall", |s, x| first(falls(s, x))),
    ("the saving of the greatest fall", |s, x| {
        let (best, _) = first(falls(s, x))?;
        tried(s, &[best]).pop()
    }),
    ("the higher of equals", |s, x| last(right_column(s, x))),
    ("the least saving", |s, x| {
        right_column(s, x)
            .into_iter()
            .min_by_key(|(_, saved)| *saved)
    }),
    ("the greatest without sign", |s, x| {
        by(s, x, |saved| saved.abs())
    }),
    ("the nearest to 0", |s, x| by(s, x, |saved| -saved.abs())),
    ("the lowest candidate", |s, x| {
        right_column(s, x).first().copied()
    }),
    ("the highest candidate", |s, x| right_column(s, x).pop()),
    ("the lowest candidate with the greatest saving", |s, x| {
        let place = right_column(s, x).first()?.0;
        Some((place, best_in_column(s, x)?.1))
    }),
    ("no further than where savings fall", |s, x| {
        let mut column = right_column(s, x);
        let falls = column.windows(2).position(|pair| pair[1].1 < pair[0].1);
        column.truncate(falls.map_or(column.len(), |place| place + 1));
        first(column)
    }),
];

/// Each mistake with the line that asks, or with the deck that is left.
pub const WRONG_LINES: [(&str, Player); 11] = [
    ("the candidate becomes a tap", |s, line| {
        leaving(s, line, |s, tap| *s = with_steiner(s, tap))
    }),
    ("the candidate becomes a tap, and a sweep", |s, line| {
        leaving(s, line, |s, tap| *s = prune(with_steiner(s, tap)))
    }),
    ("asking makes a round", |s, line| {
        leaving(s, line, |s, _| *s = round(s).0)
    }),
    ("asking loses the tail", |s, line| {
        leaving(s, line, |s, _| s.tail = 0)
    }),
    ("asking loses the taps", |s, line| {
        leaving(s, line, |s, _| s.steiner.clear())
    }),
    ("further words are passed over", |s, line| {
        let mut words: Vec<&str> = line.split(' ').collect();
        if words[0] == "column" {
            words.truncate(2);
        }
        right(s, &words.join(" "))
    }),
    ("no x is 0", |s, line| {
        right(s, if line == "column" { "column 0" } else { line })
    }),
    ("a word that is no number is 0", |s, line| {
        right(s, if line == "column x" { "column 0" } else { line })
    }),
    ("an x above 16 bits is an error", |s, line| {
        out_of(s, line, 32_767, "error")
    }),
    ("an x out of range is an error", |s, line| {
        out_of(s, line, LIMIT, "error")
    }),
    ("an x out of range is refused by 7", |s, line| {
        out_of(s, line, LIMIT, "refused 7")
    }),
];
