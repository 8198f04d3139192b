//! Scales of a card, and a drift that goes with them.

use super::prng::Prng;

const SCALES: [u64; 8] = [1, 1, 2, 3, 7, 10, 100, 1_000];

/// Scales of two channels that are equal or near each other.
const NEAR: [(u64, u64); 10] = [
    (2, 2),
    (3, 3),
    (2, 3),
    (3, 2),
    (7, 10),
    (10, 7),
    (1, 2),
    (100, 100),
    (1_000, 1_000),
    (1_000, 999),
];

/// Scales out of range, as wide as a caller may pass them.
pub const BAD: [u64; 5] = [0, 1_001, 4_294_967_295, 4_294_967_296, u64::MAX];
/// Those of them that a sheet can hold.
pub const BAD_IN_A_SHEET: [u64; 3] = [0, 1_001, 4_294_967_295];

/// One scale for each channel: half the time all 1.
pub fn scales(rng: &mut Prng, channels: u64) -> Vec<u64> {
    let one = if rng.once_in(2) { 1 } else { rng.pick(&SCALES) };
    let alike = one == 1 || rng.once_in(3);
    (0..channels).map(|_| if alike { one } else { rng.pick(&SCALES) }).collect()
}

/// The same for one channel or two, so near each other that one drift leaves both few histories.
pub fn near_scales(rng: &mut Prng, channels: u64) -> Vec<u64> {
    let (one, other) = if rng.once_in(2) { (1, 1) } else { rng.pick(&NEAR) };
    [one, other][..channels as usize].to_vec()
}

/// A drift of so many units of the channel with the largest scale, and perhaps a part of one more.
pub fn drift(rng: &mut Prng, scales: &[u64], units: u64) -> u64 {
    let largest = scales.iter().copied().max().unwrap_or(1);
    let part = rng.below(largest as usize) as u64;
    units * largest + rng.pick(&[0, 0, largest - 1, part])
}
