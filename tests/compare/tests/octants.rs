//! The proved octant, through the script program: on every difference of a box,
//! at the limits of coordinates and at the ends of 32 bits it is the reference's.

use compare::binding::programs::deckplay;
use reference::differences::differences;
use reference::generate::Random;
use reference::plane::octant;

/// Asks for the octants of the differences. Returns how many lie in each.
fn same_octants(asked: &[(i64, i64)]) -> [usize; 8] {
    let line = |&(dx, dy): &(i64, i64)| format!("octant {dx} {dy}\n");
    let script: String = asked.iter().map(line).collect();
    let answers = deckplay(script.as_bytes());
    let answers: Vec<&str> = answers.lines().collect();
    assert_eq!(answers.len(), asked.len());
    let mut seen = [0; 8];
    for (&(dx, dy), answer) in asked.iter().zip(answers) {
        let Some(number) = octant(dx, dy) else {
            assert_eq!((dx, dy, answer), (0, 0, "error"));
            continue;
        };
        assert_eq!(answer, format!("octant {number}"), "{dx} {dy}");
        seen[number as usize] += 1;
    }
    seen
}

#[test]
fn a_box_and_the_limits() {
    let asked = differences();
    for far in [30_000, 60_000, i64::from(i32::MAX)] {
        assert!(asked.contains(&(far, -far)) && asked.contains(&(-far, -far)));
    }
    let least = i64::from(i32::MIN);
    assert!(asked.contains(&(least, least)) && asked.contains(&(0, 0)));
    let seen = same_octants(&asked);
    // The box has 6,560 differences but 0, 0, the same number in each octant.
    assert!(seen.iter().all(|&count| count >= 820), "{seen:?}");
    assert_eq!(seen.iter().sum::<usize>(), asked.len() - 1);
}

/// Differences of any 32 bits, some of them on a ray or beside one.
#[test]
fn any_differences() {
    let mut random = Random::new(94);
    let mut asked = Vec::new();
    for _ in 0..2_000 {
        let (a, b) = (random.draw() as i32, random.draw() as i32);
        let beside = random.range(-1, 1) as i32;
        let turned = a.wrapping_neg().wrapping_add(beside);
        let other = random.pick(&[b, a.wrapping_add(beside), turned, beside]);
        let pair = random.pick(&[(a, other), (other, a)]);
        asked.push((i64::from(pair.0), i64::from(pair.1)));
    }
    let seen = same_octants(&asked);
    assert!(seen.iter().all(|&count| count > 100), "{seen:?}");
}

/// Numbers beyond 32 bits are no differences.
#[test]
fn beyond_32_bits() {
    let script =
        "octant 2147483648 1\noctant 1 2147483648\noctant -2147483649 1\noctant 1 -2147483649\n";
    assert_eq!(deckplay(script.as_bytes()), "error\n".repeat(4));
}
