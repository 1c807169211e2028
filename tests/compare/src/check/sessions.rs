//! Sessions on the proved deck beside the reference. Each function here panics
//! where a reply, a word of a deck or a kind differs.

use super::questions::same_answers;
use super::replies::Replies;
use crate::binding::calls;
use crate::binding::deck::Deck;
use crate::binding::parts::Parts;
use crate::input::calls::{some_call, Shape};
use reference::generate::{Place, Random};
use reference::session::{call, Call, Reply, State};

/// One call on both: the same reply and, in every word and kind, the same deck.
pub fn same_call(deck: &Deck, state: &State, asked: Call) -> (Deck, State, Reply) {
    let (next, reply) = call(state, asked);
    let (found, parts) = calls::call(deck, asked);
    assert_eq!(parts, Parts::of(reply), "{asked:?} on {state:?}");
    assert_eq!(found, Deck::of(&next), "{asked:?} on {state:?}");
    (found, next, reply)
}

/// One call on a deck that is refused by this number: the deck is handed back,
/// in every word and kind.
pub fn refused_call(deck: &Deck, asked: Call, number: u8) {
    let (after, parts) = calls::call(deck, asked);
    let refused = Parts::of(Reply::Refused(number));
    assert_eq!(parts, refused, "{asked:?} on {deck:?}");
    assert_eq!(after, *deck, "{asked:?}");
}

/// One session from a state; the state that it comes to. After some calls the
/// deck is asked all questions, or a few where it has many points.
pub fn session(
    random: &mut Random,
    place: &Place,
    from: &State,
    shape: Shape,
    seen: &mut Replies,
) -> State {
    let (mut deck, mut state) = (Deck::of(from), from.clone());
    let refused_before = seen.refused.total();
    for i in 0..shape.calls {
        let asked = some_call(random, place, &state, shape, i);
        let (found, next, reply) = same_call(&deck, &state, asked);
        (deck, state) = (found, next);
        seen.reply(reply, &state);
        let many = state.pins.len() > 16;
        if i + 1 == shape.calls || !many && random.once_in(8) {
            let most = if many { 2 } else { 40 };
            seen.questions += same_answers(random, &deck, &state, most);
        }
    }
    seen.session(refused_before);
    state
}
