//! Differences between two points, to ask for their octants.

/// The lengths of the differences that are far apart: near 0, near the limit of
/// a coordinate, near the greatest difference of two, at the ends of 16 bits and
/// of 32 bits.
const LENGTHS: [i64; 17] = [
    0,
    1,
    2,
    29_999,
    30_000,
    30_001,
    32_767,
    32_768,
    59_999,
    60_000,
    60_001,
    65_535,
    65_536,
    1_000_000_000,
    2_147_483_646,
    2_147_483_647,
    2_147_483_648,
];

/// The greatest side of the box around 0, 0.
const SIDE: i64 = 40;

/// Every difference of a box around 0, 0, and every pair of numbers far apart
/// that 32 bits hold; each once.
pub fn differences() -> Vec<(i64, i64)> {
    let least = i64::from(i32::MIN);
    let mut far: Vec<i64> = LENGTHS.iter().flat_map(|&z| [z, -z]).collect();
    far.retain(|&z| z >= least && z <= i64::from(i32::MAX));
    let near: Vec<i64> = (-SIDE..=SIDE).collect();
    let mut found = Vec::new();
    for side in [&near, &far] {
        for &dx in side {
            found.extend(side.iter().map(|&dy| (dx, dy)));
        }
    }
    found.sort();
    found.dedup();
    found
}
