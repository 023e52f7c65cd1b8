//! Random frames of kinds 07 and 08.

use super::frames::Mix;
use super::rng::Rng;

/// A frame of kind 07 for one of so many fields.
pub fn store(rng: &mut Rng, mix: &Mix, fields: usize) -> Vec<u8> {
    let mut frame = vec![7, rng.below(fields) as u8];
    let value = match rng.chance(mix.few_values_percent) {
        true => rng.below(4) as i32 - 1,
        false => value(rng),
    };
    frame.extend(value.to_be_bytes());
    frame
}

/// A value: small, near a limit or a part of it, or any. Small ones are in the
/// majority, since a large one can stand in the way of all that follow.
pub fn value(rng: &mut Rng) -> i32 {
    let small = rng.below(200) as i32 - 100;
    let part = *rng.pick(&[2, 3, 4, 7, 60, 65_535]);
    match rng.below(12) {
        0..=6 => small,
        7 => i32::MAX - small.abs() / 20,
        8 => i32::MIN + small.abs() / 20,
        9 => i32::MAX / part + small / 20,
        10 => i32::MIN / part + small / 20,
        _ => rng.number() as i32,
    }
}

/// A frame of kind 08 for a link over these fields of so many: mostly a formula
/// that fits.
pub fn formula(rng: &mut Rng, id: u8, covered: &[u8], fields: usize) -> Vec<u8> {
    let ratio_percent = if covered.len() == 2 { 65 } else { 8 };
    match rng.percent(ratio_percent) {
        true => ratio(rng, id),
        false => vec![8, id, 2, field(rng, covered, fields)],
    }
}

/// A ratio, now and then with a zero.
fn ratio(rng: &mut Rng, id: u8) -> Vec<u8> {
    let mut frame = vec![8, id, 1];
    for _ in 0..2 {
        let number = match rng.below(40) {
            0..=23 => rng.between(1, 4) as u16,
            24..=31 => *rng.pick(&[7, 60, 100, 255, 256, 1_000]),
            32..=35 => rng.number() as u16,
            36..=38 => *rng.pick(&[32_767, 32_768, 65_534, 65_535]),
            _ => 0,
        };
        frame.extend(number.to_be_bytes());
    }
    frame
}

/// The field of a sum: mostly a covered one, else one that the panel has or the
/// first that it does not have.
fn field(rng: &mut Rng, covered: &[u8], fields: usize) -> u8 {
    match covered.is_empty() || rng.percent(10) {
        true => rng.between(0, fields) as u8,
        false => *rng.pick(covered),
    }
}
