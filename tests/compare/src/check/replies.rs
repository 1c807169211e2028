//! The replies that were seen in sessions, so that a test can ask for enough.

use reference::pins::only_sensors;
use reference::refusals::{Refusals, OF_CALL};
use reference::session::{Reply, State};
use std::fmt;

/// How many replies of each kind were seen, and on what decks.
#[derive(Clone, Debug, Default)]
pub struct Replies {
    pub sessions: usize,
    /// Sessions in which a call was refused.
    pub with_refusal: usize,
    pub calls: usize,
    pub done: usize,
    pub refused: Refusals,
    pub finished: usize,
    pub taps: usize,
    /// Runs to the end, and those of them that added a Steiner point.
    pub runs: usize,
    pub runs_that_add: usize,
    /// Calls that left a display or a controller on the deck, and calls that left a tail.
    pub with_devices: usize,
    pub with_tail: usize,
    /// New Steiner points on decks with a tail.
    pub taps_with_tail: usize,
    /// The most pins and the most Steiner points of a deck.
    pub most_pins: usize,
    pub most_steiner: usize,
    pub questions: usize,
}

impl Replies {
    /// Counts a reply and the deck after it.
    pub fn reply(&mut self, reply: Reply, state: &State) {
        self.calls += 1;
        match reply {
            Reply::Done => self.done += 1,
            Reply::Refused(number) => self.refused.see(number),
            Reply::Finished => self.finished += 1,
            Reply::Tap { .. } => {
                self.taps += 1;
                self.taps_with_tail += (state.tail > 0) as usize;
            }
            Reply::Rounds(count) => {
                self.runs += 1;
                self.runs_that_add += (count > 0) as usize;
            }
        }
        self.with_devices += !only_sensors(&state.pins) as usize;
        self.with_tail += (state.tail > 0) as usize;
        self.most_pins = self.most_pins.max(state.pins.len());
        self.most_steiner = self.most_steiner.max(state.steiner.len());
    }

    /// Counts a session, given the number of refusals before it.
    pub fn session(&mut self, refused_before: usize) {
        self.sessions += 1;
        self.with_refusal += (self.refused.total() > refused_before) as usize;
    }

    /// At least a third of the sessions had a refused call.
    pub fn refused_often(&self) -> bool {
        3 * self.with_refusal >= self.sessions
    }
}

/// The counts, in a few lines.
impl fmt::Display for Replies {
    fn fmt(&self, out: &mut fmt::Formatter<'_>) -> fmt::Result {
        writeln!(
            out,
            "{} sessions, {} with a refused call; {} calls; at most {} pins and {} Steiner points",
            self.sessions, self.with_refusal, self.calls, self.most_pins, self.most_steiner
        )?;
        writeln!(
            out,
            "  {} done, {} finished, {} with a new Steiner point, {} runs to the end ({} added)",
            self.done, self.finished, self.taps, self.runs, self.runs_that_add
        )?;
        let refusals = OF_CALL.map(|n| format!("{n}: {}", self.refused.by(n)));
        let total = self.refused.total();
        writeln!(out, "  {total} refused, {}", refusals.join(", "))?;
        let (devices, questions) = (self.with_devices, self.questions);
        let (tail, taps) = (self.with_tail, self.taps_with_tail);
        writeln!(
            out,
            "  {devices} left a display or a controller; {questions} questions"
        )?;
        write!(
            out,
            "  {tail} left a tail, {taps} of them with a new Steiner point"
        )
    }
}
