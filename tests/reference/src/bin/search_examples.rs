//! Searches small call lists from the empty deck on which a wrong turn shows,
//! and prints the smallest ones found for each.

use reference::cases::*;
use reference::generate::Random;
use reference::pins::SENSOR;
use reference::plane::Point;
use reference::script::{call_line, reply_line};
use reference::session::{after, call, Call, State};
use reference::tree::length;
use std::collections::BTreeMap;

/// The way in which the case shows at the last call of a list, if at all.
fn shows_last(calls: &[Call], shows: Shows) -> Option<String> {
    let (&last, first) = calls.split_last()?;
    shows(calls, &after(first).0, last)
}

/// The size of a list: too long, pins, calls, greatest coordinate, their sum.
type Size = (bool, usize, usize, i64, i64);

fn size(calls: &[Call]) -> Size {
    let (mut pins, mut most, mut sum) = (0, 0, 0);
    for &one in calls {
        if let Call::Add(x, y, _) = one {
            pins += 1;
            most = most.max(x.abs()).max(y.abs());
            sum += x.abs() + y.abs();
        }
    }
    (calls.len() > 8, pins, calls.len(), most, sum)
}

/// The list with each coordinate of its pins changed.
fn moved(calls: &[Call], change: impl Fn(Point) -> Point) -> Vec<Call> {
    let one = |&one: &Call| match one {
        Call::Add(x, y, kind) => {
            let p = change(Point::new(x, y));
            Call::Add(p.x, p.y, kind)
        }
        Call::Withdraw(x, y) => {
            let p = change(Point::new(x, y));
            Call::Withdraw(p.x, p.y)
        }
        other => other,
    };
    calls.iter().map(one).collect()
}

/// Lists near to this one that may be smaller.
fn neighbours(calls: &[Call]) -> Vec<Vec<Call>> {
    let mut near = Vec::new();
    for i in 0..calls.len() {
        near.push([&calls[..i], &calls[i + 1..]].concat());
        let mut ended = calls.to_vec();
        ended[i] = Call::Finish;
        near.push(ended.clone());
        for j in i + 1..calls.len() {
            near.push([&calls[..i], &calls[i + 1..j], &calls[j + 1..]].concat());
            near.push([&ended[..=i], &calls[j..]].concat());
        }
        if let Call::Add(a, b, _) = calls[i] {
            for (dx, dy) in [(-1, 0), (0, -1), (-1, -1), (1, -1), (-1, 1)] {
                near.push(moved(calls, |p| {
                    if p == Point::new(a, b) {
                        Point::new(a + dx, b + dy)
                    } else {
                        p
                    }
                }));
            }
        }
    }
    for line in 0..20 {
        near.push(moved(calls, |p| {
            Point::new(if p.x > line { p.x - 1 } else { p.x }, p.y)
        }));
        near.push(moved(calls, |p| {
            Point::new(p.x, if p.y > line { p.y - 1 } else { p.y })
        }));
    }
    near
}

/// The smallest list that is reached from this one by smaller neighbours.
fn shrink(calls: &[Call], shows: Shows) -> Vec<Call> {
    let mut now = calls.to_vec();
    'again: loop {
        for near in neighbours(&now) {
            if size(&near) < size(&now) && shows_last(&near, shows).is_some() {
                now = near;
                continue 'again;
            }
        }
        return at_origin(&now);
    }
}

/// The list moved so that the least x and the least y are 0.
fn at_origin(calls: &[Call]) -> Vec<Call> {
    let added = |&one: &Call| match one {
        Call::Add(x, y, _) => Some((x, y)),
        _ => None,
    };
    let least_x = calls
        .iter()
        .filter_map(added)
        .map(|(x, _)| x)
        .min()
        .unwrap_or(0);
    let least_y = calls
        .iter()
        .filter_map(added)
        .map(|(_, y)| y)
        .min()
        .unwrap_or(0);
    moved(calls, |p| Point::new(p.x - least_x, p.y - least_y))
}

/// A random call list: some pins first, then a mixture.
fn random_list(random: &mut Random) -> Vec<Call> {
    let (width, height) = (random.range(1, 12), random.range(1, 12));
    let first = random.range(3, 7) as usize;
    let total = first + random.range(1, 6) as usize;
    let mut pins = Vec::new();
    let mut calls = Vec::new();
    while calls.len() < total {
        let point = (random.range(0, width), random.range(0, height));
        let kind = if calls.len() < first {
            0
        } else {
            random.range(0, 9)
        };
        match kind {
            0 | 1 => {
                pins.push(point);
                calls.push(Call::Add(point.0, point.1, SENSOR))
            }
            2..=4 => {
                let (x, y) = pins[random.range(0, pins.len() as i64 - 1) as usize];
                calls.push(Call::Withdraw(x, y))
            }
            5 | 6 => calls.push(Call::Finish),
            _ => calls.push(Call::Round),
        }
    }
    calls
}

fn print_example(calls: &[Call], shows: Shows) {
    let mut state = State::default();
    let mut words = Vec::new();
    for &one in calls {
        let (next, reply) = call(&state, one);
        words.push(format!(
            "{} -> {} L{}",
            call_line(one),
            reply_line(reply),
            length(&next.tree(), next.tail)
        ));
        state = next;
    }
    println!("  {}", words.join("; "));
    println!(
        "    ends: pins {} taps {} runs {}",
        show_points(&state.places()),
        show_points(&state.steiner),
        show_edges(&state.tree())
    );
    println!("    {}", shows_last(calls, shows).unwrap());
}

/// The key under which lists of the same calls in another order are one.
fn key(calls: &[Call]) -> (Size, String) {
    let mut words: Vec<String> = calls.iter().map(|&one| call_line(one)).collect();
    words.sort();
    (size(calls), words.join(" "))
}

type Found = BTreeMap<(Size, String), Vec<Call>>;

/// Tries each case at each call of one list, the n-th.
fn try_list(calls: &[Call], n: usize, found: &mut [Found], hits: &mut [usize]) {
    let mut state = State::default();
    for i in 0..calls.len() {
        for (place, case) in CASES.iter().enumerate() {
            let wanted = n < case.lists;
            if wanted && (case.shows)(&calls[..=i], &state, calls[i]).is_some() {
                hits[place] += 1;
                if hits[place] <= 60 || hits[place].is_power_of_two() {
                    let small = shrink(&calls[..=i], case.shows);
                    found[place].insert(key(&small), small);
                }
            }
        }
        state = call(&state, calls[i]).0;
    }
}

/// Argument: the seed.
fn main() {
    let seed = std::env::args()
        .nth(1)
        .map_or(1, |word| word.parse().expect("a seed"));
    let mut random = Random::new(seed);
    let mut found = vec![Found::new(); CASES.len()];
    let mut hits = vec![0; CASES.len()];
    let most = CASES.iter().map(|case| case.lists).max().unwrap_or(0);
    for n in 0..most {
        try_list(&random_list(&mut random), n, &mut found, &mut hits);
    }
    for (place, case) in CASES.iter().enumerate() {
        println!(
            "{} ({} hits in {} lists)",
            case.title, hits[place], case.lists
        );
        let best = found[place].values().take(3);
        best.for_each(|calls| print_example(calls, case.shows));
    }
}
