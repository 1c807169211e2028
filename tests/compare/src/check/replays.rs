//! Lists of calls by the reference, and what they leave.

use super::entries::Expected;
use super::replies::Replies;
use crate::input::call_bytes::{call_bytes, calls_of, in_bytes, no_call_bytes};
use crate::input::calls::{some_call, Shape};
use reference::file::{read, write};
use reference::generate::{Place, Random};
use reference::session::{call, State};

/// What the reference leaves after calls on the deck of a file, or on an empty
/// one where it has no bytes.
pub fn replayed(file: &[u8], calls: &[u8], seen: &mut Replies) -> Expected {
    let mut state = State::default();
    if !file.is_empty() {
        state = read(file)?;
    }
    for asked in calls_of(calls) {
        let (next, reply) = call(&state, asked);
        state = next;
        seen.reply(reply, &state);
    }
    Ok(write(&state))
}

/// The bytes of a list of calls from a state, with no call here and there, and
/// the state that they leave by the reference.
pub fn some_list(
    random: &mut Random,
    place: &Place,
    from: &State,
    shape: Shape,
    seen: &mut Replies,
) -> (Vec<u8>, State) {
    let (mut state, mut list, mut bytes) = (from.clone(), Vec::new(), Vec::new());
    let refused_before = seen.refused.total();
    for i in 0..shape.calls {
        let asked = in_bytes(some_call(random, place, &state, shape, i));
        let (next, reply) = call(&state, asked);
        state = next;
        seen.reply(reply, &state);
        list.push(asked);
        bytes.extend(call_bytes(random, asked));
        if random.once_in(5) {
            bytes.extend(no_call_bytes(random));
        }
    }
    seen.session(refused_before);
    assert_eq!(calls_of(&bytes), list);
    (bytes, state)
}
