//! Damaged decks: every call is refused by 11 and hands the deck back, in every
//! word and kind. Where a damage gives a sound deck, the calls are the reference's.

use compare::binding::deck::Deck;
use compare::binding::places::{KIND_PLACES, WORDS};
use compare::binding::questions::Question;
use compare::check::questions;
use compare::check::replies::Replies;
use compare::check::sessions::{refused_call, same_call, session};
use compare::input::calls::Shape;
use compare::input::damaged_decks::{counts, kinds, points, tails, unused, words, Damaged};
use compare::input::damaged_trees::{edges, other_trees, roles, weak_points};
use compare::input::points::crossings;
use compare::input::states::{grid, start};
use reference::examples::{comb, mixed};
use reference::generate::{Kind, Place, Random, KINDS};
use reference::pins::{sensors, DISPLAY};
use reference::plane::Point;
use reference::refusals::NOT_SOUND;
use reference::session::{finish, Call, State};
use std::collections::BTreeMap;
use std::thread;

/// What was seen: for each damage how many decks were not sound and how many were,
/// and for each word and each kind how many that are not sound differ there.
struct Seen {
    damages: BTreeMap<&'static str, (usize, usize)>,
    words: [usize; WORDS],
    kinds: [usize; KIND_PLACES],
}

impl Seen {
    /// Adds what was seen elsewhere.
    fn add(&mut self, other: &Seen) {
        for (name, counts) in &other.damages {
            let sum = self.damages.entry(name).or_default();
            *sum = (sum.0 + counts.0, sum.1 + counts.1);
        }
        let add = |sum: &mut usize, count: &usize| *sum += count;
        let words = self.words.iter_mut().zip(&other.words);
        words.for_each(|(sum, count)| add(sum, count));
        let kinds = self.kinds.iter_mut().zip(&other.kinds);
        kinds.for_each(|(sum, count)| add(sum, count));
    }
}

/// Calls at places held, free and out of range, with a kind that there is not, and with
/// tails that are taken and that are not; on few points every call.
fn calls(state: &State, few: bool) -> Vec<Call> {
    let held = state.points().first().copied().unwrap_or(Point::new(0, 0));
    let mut places = vec![(30_001, held.y)];
    if few {
        places.extend([(held.x, held.y), (held.x + 1, held.y - 7)]);
    }
    let add = places.iter().map(|&(x, y)| Call::Add(x, y, DISPLAY));
    let add = add.chain([Call::Add(held.x, held.y, 3)]);
    let tails = [0, 500, 501].map(Call::SetTail);
    let withdraw = places.iter().map(|&(x, y)| Call::Withdraw(x, y));
    let rounds: &[Call] = if few {
        &[Call::Round, Call::Finish]
    } else {
        &[]
    };
    let calls = add.chain(withdraw).chain(tails);
    calls.chain(rounds.iter().copied()).collect()
}

/// Every call and question on a deck that is not sound.
fn all_refused(state: &State, damaged: &Deck) {
    for call in calls(state, true) {
        refused_call(damaged, call, NOT_SOUND);
    }
    questions::all_refused(damaged, state);
}

/// The state of a damaged deck where it is sound, by the reference. The tree of the
/// state before the damage, which is valid, is that of the deck from before: it is not
/// built again.
fn state_of(state: &State, right: &Deck, damaged: &Deck) -> Option<State> {
    match damaged.points() {
        Some(held) if held == *state => (damaged == right).then_some(held),
        _ => damaged.state(),
    }
}

/// Every call and question on a damaged deck; whether they were refused.
fn answers(random: &mut Random, state: &State, right: &Deck, damaged: &Deck) -> bool {
    let Some(held) = state_of(state, right, damaged) else {
        all_refused(state, damaged);
        return true;
    };
    let few = held.points().len() <= 14;
    for call in calls(&held, few) {
        same_call(damaged, &held, call);
    }
    if few {
        questions::same_answers(random, damaged, &held, 3);
    } else {
        for question in [Question::Length, Question::Kinds] {
            questions::same_answer(damaged, &held, question);
        }
    }
    false
}

/// All damages of a deck; where it has many points one in four of most kinds.
fn damages(random: &mut Random, state: &State) -> Vec<Damaged> {
    let deck = Deck::of(state);
    let count = state.points().len().saturating_sub(1);
    let mut places = crossings(&state.points());
    places.truncate(60);
    let mut all = [
        counts(&deck),
        points(&deck),
        words(random, &deck),
        edges(random, &deck, count),
        roles(state, &deck),
        weak_points(state, &places),
    ]
    .concat();
    all.retain(|_| count < 40 || random.once_in(4));
    all.extend(other_trees(state, &deck, 20));
    all.extend(unused(&deck));
    all.extend(kinds(&deck));
    all.extend(tails(&deck));
    all
}

/// Does all damages to every second deck, from the one at `first` on.
fn damage_half(states: &[State], first: usize) -> Seen {
    let mut random = Random::new(51 + first as u64);
    let mut seen = Seen {
        damages: BTreeMap::new(),
        words: [0; WORDS],
        kinds: [0; KIND_PLACES],
    };
    for state in states.iter().skip(first).step_by(2) {
        damage(&mut random, state, &mut seen);
    }
    seen
}

/// Does all damages to a deck, and counts them.
fn damage(random: &mut Random, state: &State, seen: &mut Seen) {
    let right = Deck::of(state);
    assert_eq!(right.state().as_ref(), Some(state));
    for (name, damaged) in damages(random, state) {
        let refused = answers(random, state, &right, &damaged);
        let counts = seen.damages.entry(name).or_default();
        counts.0 += refused as usize;
        counts.1 += !refused as usize;
        for place in 0..WORDS {
            let differs = damaged.words[place] != right.words[place];
            seen.words[place] += (refused && differs) as usize;
        }
        for place in 0..KIND_PLACES {
            let differs = damaged.kinds[place] != right.kinds[place];
            seen.kinds[place] += (refused && differs) as usize;
        }
    }
}

/// Decks that sessions come to, after a run to the end every second time.
fn bases(random: &mut Random) -> Vec<State> {
    let mut found = Vec::new();
    for kind in KINDS {
        for i in 0..10 {
            let place = Place::new(random, kind);
            let from = start(random, &place, 12);
            let calls = random.range(1, 24) as usize;
            let shape = Shape {
                calls,
                added: calls / 2,
                small: 14,
                eager: i % 3 == 0,
            };
            let last = session(random, &place, &from, shape, &mut Replies::default());
            found.push(if i % 2 == 0 { last } else { finish(&last).0 });
        }
    }
    found
}

/// Decks of few points and of the most.
fn special(random: &mut Random) -> Vec<State> {
    let mut found = vec![State::default(), comb(1), comb(2), mixed(comb(8))];
    found.extend([comb(62), mixed(comb(62))]);
    for count in [1, 2, 3, 63, 64] {
        found.push(grid(random, count, 9));
    }
    let place = Place::new(random, Kind::Scattered);
    let scattered = sensors(&place.points(random, 64));
    found.push(State::new(scattered, Vec::new()));
    found.extend([500, 7].map(|tail| mixed(comb(8)).with_tail(tail)));
    found
}

/// Every damage, with the least number of decks that are not sound and the least
/// number that are.
const LEAST: [(&str, usize, usize); 33] = [
    ("count of pins", 800, 1),
    ("count of Steiner points", 800, 0),
    ("pin moved", 2_000, 1_000),
    ("pin doubled", 8_000, 0),
    ("pin out of order", 4_000, 0),
    ("pin out of range", 4_000, 0),
    ("Steiner point moved", 300, 300),
    ("Steiner point doubled", 1_000, 0),
    ("Steiner point out of order", 500, 0),
    ("Steiner point out of range", 600, 0),
    ("pin made a Steiner point", 400, 30),
    ("Steiner point on a pin", 500, 0),
    ("Steiner point made a pin", 10, 60),
    ("pin on a Steiner point", 80, 0),
    ("Steiner point of two edges", 1_000, 0),
    ("tree of equal length", 200, 0),
    ("longer tree", 1_000, 0),
    ("edge turned round", 1_000, 0),
    ("edge in a ring", 1_000, 0),
    ("edge to no point", 2_000, 0),
    ("edge changed", 2_000, 0),
    ("edge doubled", 1_500, 0),
    ("edge missing", 500, 0),
    ("edges swapped", 500, 0),
    ("kind changed", 0, 800),
    ("no kind", 3_000, 0),
    ("unused kind", 10_000, 0),
    ("tail changed", 0, 300),
    ("tail too long", 900, 0),
    ("unused pin", 10_000, 0),
    ("unused Steiner point", 10_000, 0),
    ("unused edge", 20_000, 0),
    ("word", 60_000, 1_000),
];

#[test]
fn damaged_decks() {
    let mut random = Random::new(50);
    let states = [special(&mut random), bases(&mut random)].concat();
    let seen = thread::scope(|scope| {
        let other = scope.spawn(|| damage_half(&states, 1));
        let mut seen = damage_half(&states, 0);
        seen.add(&other.join().expect("the other half"));
        seen
    });
    for (name, (refused, sound)) in &seen.damages {
        println!("{name}: {refused} refused, {sound} sound");
    }
    println!("least of a word: {:?}", seen.words.iter().min());
    println!("least of a kind: {:?}", seen.kinds.iter().min());
    assert_eq!(seen.damages.len(), LEAST.len());
    for (name, refused, sound) in LEAST {
        let found = seen.damages[name];
        assert!(found.0 >= refused && found.1 >= sound, "{name}: {found:?}");
    }
    let places = seen.words.iter().chain(&seen.kinds);
    assert!(places.min() > Some(&100));
}
