//! Pseudo-random decks and call lists for tests.

use crate::devices::{any_kind, devices, kind as device_kind};
use crate::file::{point_bytes, write, write_plain};
use crate::plane::{Point, LIMIT};
use crate::session::{call, prune, Call, State, MOST_PINS};
use crate::tails::any_tail;

/// A splitmix64 generator: the same seed gives the same numbers.
pub struct Random {
    seed: u64,
}

impl Random {
    /// The generator of a seed.
    pub fn new(seed: u64) -> Random {
        Random { seed }
    }

    /// The next number, of any 64 bits.
    pub fn draw(&mut self) -> u64 {
        self.seed = self.seed.wrapping_add(0x9e37_79b9_7f4a_7c15);
        let mut z = self.seed;
        z = (z ^ (z >> 30)).wrapping_mul(0xbf58_476d_1ce4_e5b9);
        z = (z ^ (z >> 27)).wrapping_mul(0x94d0_49bb_1331_11eb);
        z ^ (z >> 31)
    }

    /// A number from `least` to `most`, both included.
    pub fn range(&mut self, least: i64, most: i64) -> i64 {
        assert!(least <= most);
        least + (self.draw() % (most - least + 1) as u64) as i64
    }

    /// True once in `times`.
    pub fn once_in(&mut self, times: u64) -> bool {
        self.draw().is_multiple_of(times)
    }

    /// One of the items.
    pub fn pick<T: Copy>(&mut self, items: &[T]) -> T {
        items[self.range(0, items.len() as i64 - 1) as usize]
    }

    /// The items in another order, or by chance in the same one.
    pub fn shuffled<T: Clone>(&mut self, items: &[T]) -> Vec<T> {
        let mut items = items.to_vec();
        for i in (1..items.len()).rev() {
            items.swap(i, self.range(0, i as i64) as usize);
        }
        items
    }
}

/// The kinds of decks, by where their points are.
#[derive(Clone, Copy, Debug, PartialEq, Eq)]
pub enum Kind {
    /// Anywhere in the whole range.
    Scattered,
    /// Anywhere in a small box.
    Small,
    /// On a grid of even pitch: most comparisons tie.
    EvenPitch,
    /// Lanes of bays on both sides, a display at each end of a lane.
    Lanes,
    /// A few clusters far from one another.
    Clustered,
    /// All on one line, upright, level or slanting.
    Collinear,
    /// Near the limits of the range.
    Edges,
}

/// Every kind, once.
pub const KINDS: [Kind; 7] = [
    Kind::Scattered,
    Kind::Small,
    Kind::EvenPitch,
    Kind::Lanes,
    Kind::Clustered,
    Kind::Collinear,
    Kind::Edges,
];

/// A place for points: the kind and what is fixed for one deck.
pub struct Place {
    kind: Kind,
    origin: Point,
    pitch: i64,
    width: i64,
    height: i64,
}

impl Place {
    /// A place of a kind.
    pub fn new(random: &mut Random, kind: Kind) -> Place {
        Place {
            kind,
            origin: Point::new(random.range(-14_000, 14_000), random.range(-14_000, 14_000)),
            pitch: random.pick(&[1, 2, 3, 10, 250, 500]),
            width: random.range(1, 7),
            height: random.range(1, 7),
        }
    }

    /// A point of the place; the same one may come again.
    pub fn point(&self, random: &mut Random) -> Point {
        let (x, y) = (random.range(0, self.width), random.range(0, self.height));
        let from = |dx: i64, dy: i64| Point::new(self.origin.x + dx, self.origin.y + dy);
        match self.kind {
            Kind::Scattered => Point::new(random.range(-LIMIT, LIMIT), random.range(-LIMIT, LIMIT)),
            Kind::Small => Point::new(x, y),
            Kind::EvenPitch => from(self.pitch * x, self.pitch * y),
            Kind::Lanes => self.lane_point(random),
            Kind::Clustered => from(1_000 * (x / 2) + y, 1_000 * (y / 3) + x),
            Kind::Collinear => {
                let (along, slant) = (random.range(0, 30) * self.pitch, self.width % 4);
                from(
                    along * [1, 0, 1, 1][slant as usize],
                    along * [0, 1, 1, -1][slant as usize],
                )
            }
            Kind::Edges => {
                let side = |near: i64, low: bool| if low { near - LIMIT } else { LIMIT - near };
                Point::new(side(x, random.once_in(2)), side(y, random.once_in(2)))
            }
        }
    }

    /// A bay on one side of a lane, or the display at one end of it.
    fn lane_point(&self, random: &mut Random) -> Point {
        let lane = random.range(0, self.height / 3) * 1_600;
        let (x, y) = if random.once_in(4) {
            (random.pick(&[-300, 250 * self.width + 300]), lane)
        } else {
            (
                250 * random.range(0, self.width),
                lane + random.pick(&[-500, 500]),
            )
        };
        Point::new(self.origin.x + x, self.origin.y + y)
    }

    /// At most `most` different points, rising; fewer where the place is small.
    pub fn points(&self, random: &mut Random, most: usize) -> Vec<Point> {
        let mut points: Vec<Point> = (0..most).map(|_| self.point(random)).collect();
        points.sort();
        points.dedup();
        points
    }
}

/// The points of some pins, on a deck of a kind, rising.
pub fn pins(random: &mut Random, kind: Kind, most: usize) -> Vec<Point> {
    let place = Place::new(random, kind);
    place.points(random, most)
}

/// The points of exactly 64 pins, on a grid of even pitch, rising.
pub fn most_pins(random: &mut Random) -> Vec<Point> {
    let mut points = Vec::new();
    while points.len() < MOST_PINS {
        points.push(Point::new(
            random.range(-8, 8) * 250,
            random.range(-8, 8) * 250,
        ));
        points.sort();
        points.dedup();
    }
    points
}

/// A valid state with devices of any kind and with Steiner points anywhere, also
/// on lines of no pin.
pub fn full_state(random: &mut Random, kind: Kind, most: usize) -> State {
    let place = Place::new(random, kind);
    full_state_at(random, &place, most)
}

/// The same at a given place.
pub fn full_state_at(random: &mut Random, place: &Place, most: usize) -> State {
    let points = place.points(random, most);
    let mut steiner = place.points(random, most);
    steiner.retain(|tap| !points.contains(tap));
    let pins = devices(random, &points);
    prune(State::new(pins, steiner))
}

/// A file that is accepted: plain once in three, else full.
pub fn good_file(random: &mut Random, kind: Kind, most: usize) -> Vec<u8> {
    let state = full_state(random, kind, most);
    if random.once_in(3) {
        write_plain(&state.pins)
    } else {
        write(&state)
    }
}

/// A call on a state: most are taken, some are refused.
pub fn one_call(random: &mut Random, place: &Place, state: &State) -> Call {
    let near = place.point(random);
    let far = random.pick(&[-LIMIT - 1, -LIMIT, LIMIT, LIMIT + 1]);
    let device = any_kind(random);
    let held = state.points();
    match random.range(0, 16) {
        0 => Call::Add(far, near.y, device),
        1 => Call::Add(near.x, far, device),
        2 => Call::Withdraw(near.x, near.y),
        3 if !held.is_empty() => {
            let point = random.pick(&held);
            Call::Add(point.x, point.y, device)
        }
        4 if !state.steiner.is_empty() => {
            let point = random.pick(&state.steiner);
            Call::Add(point.x, point.y, device)
        }
        5..=7 if !state.pins.is_empty() => {
            let point = random.pick(&state.pins).point;
            Call::Withdraw(point.x, point.y)
        }
        8 if !state.steiner.is_empty() => {
            let point = random.pick(&state.steiner);
            Call::Withdraw(point.x, point.y)
        }
        9 => Call::Finish,
        10 | 11 => Call::Round,
        12 => Call::SetTail(any_tail(random)),
        _ => Call::Add(near.x, near.y, device),
    }
}

/// A call list from a state: pins to begin with, now and then a tail among them,
/// then a mixture.
pub fn call_list(random: &mut Random, kind: Kind, from: &State, calls: usize) -> Vec<Call> {
    let place = Place::new(random, kind);
    let mut state = from.clone();
    let mut list = Vec::new();
    for i in 0..calls {
        let next = if 2 * i >= calls {
            one_call(random, &place, &state)
        } else if random.once_in(12) {
            Call::SetTail(any_tail(random))
        } else {
            let point = place.point(random);
            Call::Add(point.x, point.y, device_kind(random))
        };
        state = call(&state, next).0;
        list.push(next);
    }
    list
}

/// The bytes of a section of exactly `count` rising pins.
pub fn many_pins(count: usize) -> Vec<u8> {
    let point = |i: usize| Point::new(10 * (i as i64 / 9), 10 * (i as i64 % 9));
    point_bytes(&(0..count).map(point).collect::<Vec<_>>())
}
