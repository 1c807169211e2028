//! The calls and questions on a deck.

use crate::candidates::{best_candidate, best_in_column};
use crate::pins::{lengths_by_kind, places, Pin};
use crate::plane::{Edge, Point};
use crate::tree::{degree, length as tree_length, listing_order, tree};

/// The greatest number of pins.
pub const MOST_PINS: usize = 64;

/// The greatest tail, in centimetres.
pub const MOST_TAIL: u64 = 500;

/// The refusal of a call with a wrong kind, or of a file with wrong kinds.
pub const BAD_KIND: u8 = 15;

/// The refusal of a tail that is too long.
pub const BAD_TAIL: u8 = 16;

/// A deck between calls (SPEC 1.2: deck), both lists rising. Its tree is
/// worked out from them whenever it is needed.
#[derive(Clone, Debug, Default, PartialEq, Eq, Hash)]
pub struct State {
    pub pins: Vec<Pin>,
    /// The Steiner points (SPEC 1.2: taps).
    pub steiner: Vec<Point>,
    /// The tail at each end of a run.
    pub tail: u64,
}

/// A call that may change the deck (SPEC 4: add, withdraw, round, run to
/// the end, set the tail). Adding names the kind of the device after x and y.
#[derive(Clone, Copy, Debug, PartialEq, Eq, Hash)]
pub enum Call {
    Add(i64, i64, u32),
    Withdraw(i64, i64),
    Round,
    Finish,
    SetTail(u32),
}

/// The answer to a call.
#[derive(Clone, Copy, Debug, PartialEq, Eq, Hash)]
pub enum Reply {
    Done,
    Refused(u8),
    /// A round that found no candidate of positive saving.
    Finished,
    /// A round that added a tap; the gain is the fall in length.
    Tap {
        x: i64,
        y: i64,
        gain: i64,
    },
    /// A run to the end, and how many of its rounds named a tap.
    Rounds(usize),
}

impl State {
    /// The state with these pins and Steiner points, in any order, and no tail.
    pub fn new(mut pins: Vec<Pin>, mut steiner: Vec<Point>) -> State {
        pins.sort();
        steiner.sort();
        let tail = 0;
        State {
            pins,
            steiner,
            tail,
        }
    }

    /// The same state with another tail.
    pub fn with_tail(self, tail: u64) -> State {
        State { tail, ..self }
    }

    /// The points of the pins.
    pub fn places(&self) -> Vec<Point> {
        places(&self.pins)
    }

    /// The kinds of the pins, in their order.
    pub fn kinds(&self) -> Vec<u32> {
        self.pins.iter().map(|pin| pin.kind).collect()
    }

    /// All points held, rising.
    pub fn points(&self) -> Vec<Point> {
        let mut points = [self.places(), self.steiner.clone()].concat();
        points.sort();
        points
    }

    /// The tree of the points held.
    pub fn tree(&self) -> Vec<Edge> {
        tree(&self.points())
    }
}

/// Whether the state is valid (SPEC 5.2: sound). Unused places do not exist
/// here, and the tree is always that of the points.
pub fn is_valid(state: &State) -> bool {
    let points = state.points();
    state.pins.len() <= MOST_PINS
        && points.iter().all(|point| point.in_range())
        && state.pins.iter().all(|pin| pin.is_known())
        && rises(&state.places())
        && rises(&state.steiner)
        && rises(&points)
        && lowest_idle(state).is_none()
        && state.tail <= MOST_TAIL
}

/// Whether each point is lower than the next one.
pub fn rises(points: &[Point]) -> bool {
    points.windows(2).all(|pair| pair[0] < pair[1])
}

/// The prune that ends each change (SPEC 4.1: sweep).
pub fn prune(mut state: State) -> State {
    while let Some(place) = lowest_idle(&state) {
        state.steiner.remove(place);
    }
    state
}

/// The place of the lowest Steiner point of at most two edges in the tree.
fn lowest_idle(state: &State) -> Option<usize> {
    let edges = state.tree();
    let idle = |&tap: &Point| degree(&edges, tap) <= 2;
    state.steiner.iter().position(idle)
}

/// One call: the deck that follows and the answer.
pub fn call(state: &State, call: Call) -> (State, Reply) {
    match call {
        Call::Add(x, y, kind) => add(state, Pin::new(Point::new(x, y), kind)),
        Call::Withdraw(x, y) => withdraw(state, Point::new(x, y)),
        Call::Round => round(state),
        Call::Finish => finish(state),
        Call::SetTail(tail) => set_tail(state, tail.into()),
    }
}

/// The deck that calls lead to from the empty one, and the answers.
pub fn after(calls: &[Call]) -> (State, Vec<Reply>) {
    let mut state = State::default();
    let mut replies = Vec::new();
    for &asked in calls {
        let (next, reply) = call(&state, asked);
        state = next;
        replies.push(reply);
    }
    (state, replies)
}

/// Adds a pin. Checks 11, 7, 15, 8, 10.
pub fn add(state: &State, pin: Pin) -> (State, Reply) {
    if !is_valid(state) {
        return (state.clone(), Reply::Refused(11));
    }
    if !pin.point.in_range() {
        return (state.clone(), Reply::Refused(7));
    }
    if !pin.is_known() {
        return (state.clone(), Reply::Refused(BAD_KIND));
    }
    if state.places().contains(&pin.point) {
        return (state.clone(), Reply::Refused(8));
    }
    if state.pins.len() == MOST_PINS {
        return (state.clone(), Reply::Refused(10));
    }
    (prune(with_pin(state, pin)), Reply::Done)
}

/// The state with one more pin, before the prune. A Steiner point that stands
/// there becomes the pin.
pub fn with_pin(state: &State, pin: Pin) -> State {
    let mut next = state.clone();
    next.steiner.retain(|&tap| tap != pin.point);
    next.pins.push(pin);
    State::new(next.pins, next.steiner).with_tail(state.tail)
}

/// Withdraws a pin. Checks 11, 9.
pub fn withdraw(state: &State, point: Point) -> (State, Reply) {
    if !is_valid(state) {
        return (state.clone(), Reply::Refused(11));
    }
    if !state.places().contains(&point) {
        return (state.clone(), Reply::Refused(9));
    }
    (prune(without_pin(state, point)), Reply::Done)
}

/// The state with one pin less, before the prune.
pub fn without_pin(state: &State, point: Point) -> State {
    let mut next = state.clone();
    next.pins.retain(|pin| pin.point != point);
    next
}

/// The state with one more Steiner point, before the prune.
pub fn with_steiner(state: &State, point: Point) -> State {
    let mut steiner = state.steiner.clone();
    steiner.push(point);
    State::new(state.pins.clone(), steiner).with_tail(state.tail)
}

/// One round. Check 11.
pub fn round(state: &State) -> (State, Reply) {
    if !is_valid(state) {
        return (state.clone(), Reply::Refused(11));
    }
    let Some((tap, _)) = best_candidate(state) else {
        return (state.clone(), Reply::Finished);
    };
    let next = prune(with_steiner(state, tap));
    let gain = tree_length(&state.tree(), state.tail) - tree_length(&next.tree(), next.tail);
    let (x, y) = (tap.x, tap.y);
    (next, Reply::Tap { x, y, gain })
}

/// Rounds until finished (SPEC 4.5: run to the end). Check 11.
pub fn finish(state: &State) -> (State, Reply) {
    let mut now = state.clone();
    let mut rounds = 0;
    loop {
        let (next, reply) = round(&now);
        match reply {
            Reply::Tap { .. } => rounds += 1,
            Reply::Finished => return (next, Reply::Rounds(rounds)),
            _ => return (next, reply),
        }
        now = next;
    }
}

/// Sets the tail: pins, taps and runs are kept. Checks 11, 16.
pub fn set_tail(state: &State, tail: u64) -> (State, Reply) {
    if !is_valid(state) {
        return (state.clone(), Reply::Refused(11));
    }
    if tail > MOST_TAIL {
        return (state.clone(), Reply::Refused(BAD_TAIL));
    }
    (state.clone().with_tail(tail), Reply::Done)
}

/// The length of the deck. Check 11, as in every question.
pub fn length(state: &State) -> Result<i64, u8> {
    valid(state)?;
    Ok(tree_length(&state.tree(), state.tail))
}

/// The numbers of pins, Steiner points and edges.
pub fn counts(state: &State) -> Result<(usize, usize, usize), u8> {
    valid(state)?;
    let edges = state.tree().len();
    Ok((state.pins.len(), state.steiner.len(), edges))
}

/// The lengths of the edges of kinds 0, 1 and 2.
pub fn kind_lengths(state: &State) -> Result<[i64; 3], u8> {
    valid(state)?;
    Ok(lengths_by_kind(&state.pins, &state.tree(), state.tail))
}

/// The edge at a place of the listing order, counted from 0, and its length, if there
/// is one.
pub fn edge_at(state: &State, place: usize) -> Result<Option<(Edge, i64)>, u8> {
    valid(state)?;
    let listed = listing_order(&state.tree());
    let edge = listed.get(place).copied();
    Ok(edge.map(|edge| (edge, edge.length(state.tail))))
}

/// How many edges end at a point, 0 if no point is held there.
pub fn degree_at(state: &State, point: Point) -> Result<usize, u8> {
    valid(state)?;
    Ok(degree(&state.tree(), point))
}

/// The best candidate of a column and its saving, if the column has a candidate.
pub fn column(state: &State, x: i64) -> Result<Option<(Point, i64)>, u8> {
    valid(state)?;
    Ok(best_in_column(state, x))
}

/// Refuses a state that is not valid.
pub fn valid(state: &State) -> Result<(), u8> {
    if is_valid(state) {
        Ok(())
    } else {
        Err(11)
    }
}
