//! Runs to the end by the proved planner and by the reference, in the form in
//! which the ways of the bench have to agree.

use crate::binding::calls::call;
use crate::binding::deck::Deck;
use crate::binding::parts::Parts;
use crate::binding::questions::{ask, Question};
use crate::by_hand::Ended;
use reference::session::{finish, length, Call, Reply, State};

/// The run to the end by the reference.
pub fn run_reference(state: &State) -> Ended {
    let (next, reply) = finish(state);
    let Reply::Rounds(rounds) = reply else {
        panic!("{reply:?}");
    };
    Ended {
        length: length(&next).expect("a sound deck") as u64,
        taps: next.steiner,
        rounds,
    }
}

/// The proved run to the end: the deck and the answer in its parts.
pub fn run_proved(deck: &Deck) -> (Deck, Parts) {
    call(deck, Call::Finish)
}

/// What a proved run to the end has to agree on.
pub fn ended(run: &(Deck, Parts)) -> Ended {
    let (deck, parts) = run;
    let rounds = parts.numbers[0] as usize;
    assert_eq!(*parts, Parts::number(4, rounds as u64));
    Ended {
        taps: deck.points().expect("counts of a deck").steiner,
        length: ask(deck, Question::Length).numbers[0],
        rounds,
    }
}
