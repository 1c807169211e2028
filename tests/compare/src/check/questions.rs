//! Questions on the proved deck beside the reference. Each function here panics
//! where an answer differs.

use crate::binding::deck::Deck;
use crate::binding::parts::{coordinate, Parts};
use crate::binding::questions::{ask, is_valid, Question};
use reference::generate::Random;
use reference::plane::{Edge, Point};
use reference::session::{column, counts, degree_at, edge_at, kind_lengths, length, Reply, State};

/// The parts of an edge and its length.
fn edge_parts((edge, length): (Edge, i64)) -> Parts {
    let (a, b) = (edge.lower, edge.higher);
    Parts {
        places: [a.x, a.y, b.x, b.y].map(coordinate),
        ..Parts::number(7, length as u64)
    }
}

/// The parts of the lengths by kind.
pub fn kind_parts(lengths: [i64; 3]) -> Parts {
    Parts {
        numbers: lengths.map(|length| length as u64),
        ..Parts::number(10, 0)
    }
}

/// The parts of what a column has: the candidate and its saving, or none.
pub fn column_parts(found: Option<(Point, i64)>) -> Parts {
    let Some((Point { x, y }, saved)) = found else {
        return Parts::number(12, 0);
    };
    Parts {
        places: [x, y, saved, 0].map(coordinate),
        ..Parts::number(11, 0)
    }
}

/// The reference's answer to a question.
fn expected(state: &State, question: Question) -> Result<Parts, u8> {
    Ok(match question {
        Question::Length => Parts::number(5, length(state)? as u64),
        Question::Counts => {
            let (pins, steiner, edges) = counts(state)?;
            Parts {
                numbers: [pins as u64, steiner as u64, edges as u64],
                ..Parts::number(6, 0)
            }
        }
        Question::Kinds => kind_parts(kind_lengths(state)?),
        Question::EdgeAt(i) => edge_at(state, i)?.map_or(Parts::number(8, 0), edge_parts),
        Question::DegreeAt(x, y) => {
            let point = Point::new(x.into(), y.into());
            Parts::number(9, degree_at(state, point)? as u64)
        }
        Question::Column(x) => column_parts(column(state, x.into())?),
    })
}

/// Questions on a state: every place and every point held where they are at
/// most `most`, places and points that are not held, and some columns.
pub fn questions(random: &mut Random, state: &State, most: usize) -> Vec<Question> {
    let points = state.points();
    let end = points.len().saturating_sub(1);
    let mut asked = vec![Question::Length, Question::Counts, Question::Kinds];
    let beyond = [end, end + 1, 125, 127, 128, 1 << 32, usize::MAX];
    asked.extend(beyond.map(Question::EdgeAt));
    asked.extend((0..end).map(Question::EdgeAt).take(most));
    asked.extend((0..end).rev().map(Question::EdgeAt).take(2));
    let at = |p: Point| Question::DegreeAt(coordinate(p.x), coordinate(p.y));
    asked.extend(points.iter().map(|&p| at(p)).take(most));
    if !points.is_empty() {
        let (a, b) = (random.pick(&points), random.pick(&points));
        let shift = random.pick(&[65_536, -65_536]);
        let near = [(a.x, b.y), (a.x + 1, a.y), (a.x, a.y - 1)];
        let far = [(a.x + shift, a.y), (a.x, a.y + shift)];
        let more = near.into_iter().chain(far);
        asked.extend(more.map(|(x, y)| at(Point::new(x, y))));
        let columns = [b.x, a.x + 1, a.x + shift].map(coordinate);
        asked.extend(columns.map(Question::Column));
    }
    asked.push(Question::DegreeAt(30_001, 0));
    asked.push(Question::DegreeAt(i32::MIN, i32::MAX));
    asked.extend([30_001, i32::MIN, i32::MAX].map(Question::Column));
    asked
}

/// Asks a sound deck one question.
pub fn same_answer(deck: &Deck, state: &State, question: Question) {
    let right = expected(state, question);
    assert_eq!(Ok(ask(deck, question)), right, "{question:?} on {state:?}");
}

/// Asks a sound deck all questions; how many.
pub fn same_answers(random: &mut Random, deck: &Deck, state: &State, most: usize) -> usize {
    assert!(is_valid(deck), "{state:?}");
    let asked = questions(random, state, most);
    for &question in &asked {
        same_answer(deck, state, question);
    }
    asked.len() + 1
}

/// Asks a deck that is not sound, made of this state, each question.
pub fn all_refused(deck: &Deck, state: &State) {
    assert!(!is_valid(deck), "{deck:?}");
    let held = state.points().last().copied().unwrap_or(Point::new(0, 0));
    for question in [
        Question::Length,
        Question::Counts,
        Question::Kinds,
        Question::EdgeAt(0),
        Question::EdgeAt(usize::MAX),
        Question::DegreeAt(coordinate(held.x), coordinate(held.y)),
        Question::DegreeAt(30_001, 0),
        Question::Column(coordinate(held.x)),
        Question::Column(30_001),
    ] {
        let refused = Parts::of(Reply::Refused(11));
        assert_eq!(ask(deck, question), refused, "{question:?} on {deck:?}");
    }
}
