//! Random headers of the European Data Format, well formed and damaged.

use super::rng::Rng;
use crate::header::{put, Header, COUNT_PLACE, LENGTH_PLACE};
use crate::worked::headers::{FLOW_UNITS, OTHER_UNITS, UNCLEAR_UNITS};

/// The file of a seed. About half of the files are well formed, with bytes behind the
/// header or without; of the others a number, the length or single bytes are
/// damaged.
pub fn header_file(seed: u64) -> Vec<u8> {
    let rng = &mut Rng::new(seed);
    let mut header = Header::new(&units(rng));
    match rng.below(8) {
        0 => header.count = number(rng, header.units.len()),
        1 => header.length = number(rng, 256 * (header.units.len() + 1)),
        2 => other_count(rng, &mut header),
        _ => {}
    }
    let mut file = header.file();
    match rng.below(8) {
        0 => cut(rng, &mut file),
        1 => change(rng, &mut file),
        2..=4 => lengthen(rng, &mut file),
        _ => {}
    }
    file
}

/// Units with none, one, some, 31, 32 or 33 flows at any places among others. Now
/// and then one of them is unclear.
fn units(rng: &mut Rng) -> Vec<Vec<u8>> {
    let some = rng.between(2, 30);
    let flows = *rng.pick(&[0, 1, 1, 2, some, some, 31, 32, 32, 33]);
    let signals = match rng.below(10) {
        0 => 254,
        1 => rng.between(flows.max(1), 254),
        _ => flows.max(1) + rng.below(8),
    };
    let mut units: Vec<&[u8]> = Vec::new();
    for signal in 0..signals {
        // So many of those that are left are flows.
        let is_flow = rng.below(signals - signal) < flows - flows_in(&units);
        let choices = if is_flow {
            &FLOW_UNITS[..]
        } else {
            &OTHER_UNITS
        };
        units.push(*rng.pick(choices));
    }
    if rng.percent(15) {
        let place = rng.below(signals);
        units[place] = *rng.pick(&UNCLEAR_UNITS);
    }
    units.into_iter().map(<[u8]>::to_vec).collect()
}

/// How many units are those of flows.
fn flows_in(units: &[&[u8]]) -> usize {
    let is_flow = |unit: &&&[u8]| FLOW_UNITS.contains(unit);
    units.iter().filter(is_flow).count()
}

/// A number as it should not be written, as a rule; with leading zeros it is
/// right. It has at most four bytes if the right one has at most three.
fn number(rng: &mut Rng, right: usize) -> Vec<u8> {
    let digits = right.to_string();
    let first = digits[..1].to_string();
    let padded = |filler: &str| {
        let width = if right < 256 { 4 } else { 8 };
        digits.clone() + &filler.repeat(width - digits.len())
    };
    let text = match rng.below(16) {
        0..=2 => return format!("{right:0width$}", width = digits.len() + 1).into_bytes(),
        3 => " ".to_string() + &digits,
        4 => "+".to_string() + &digits,
        5 => "-".to_string() + &digits,
        6 => digits + *rng.pick(&["x", ".", "\0", "\t", ",", "\n"]),
        7 => padded("\0"),
        8 => padded("0"),
        9 => String::new(),
        10 => "0".to_string(),
        11 => first + " " + &digits[1..],
        12 => (right + 1).to_string(),
        13 => (right - 1).to_string(),
        14 => rng.pick(&["254", "255", "256", "1"]).to_string(),
        _ => rng.below(10_000).to_string(),
    };
    text.into_bytes()
}

/// The count and the length of another number of signals, both right for each
/// other or only one of them changed.
fn other_count(rng: &mut Rng, header: &mut Header) {
    let signals = header.units.len();
    let any = rng.below(300);
    let other = *rng.pick(&[0, 1, signals - 1, signals + 1, 254, 255, any]);
    let length = (256 * (other + 1)).to_string().into_bytes();
    match rng.percent(70) {
        true => (header.count, header.length) = (other.to_string().into_bytes(), length),
        false => header.length = length,
    }
}

/// Cuts a file anywhere, at a multiple of 256 or next to one, or by little.
fn cut(rng: &mut Rng, file: &mut Vec<u8>) {
    let any = rng.below(file.len());
    let part = 256 * rng.below(file.len() / 256);
    let length = match rng.below(4) {
        0 => any,
        1 => part,
        2 => (part + 255).min(file.len() - 1),
        _ => file.len() - rng.between(1, 8),
    };
    file.truncate(length);
}

/// Changes bytes of a file: any, of the two numbers, or letters to the other case.
fn change(rng: &mut Rng, file: &mut [u8]) {
    for _ in 0..rng.between(1, 4) {
        let place = match rng.below(4) {
            0 => LENGTH_PLACE + rng.below(8),
            1 => COUNT_PLACE + rng.below(4),
            _ => rng.below(file.len()),
        };
        let byte = match rng.percent(30) {
            true => file[place] ^ 0x20,
            false => rng.byte(),
        };
        put(file, place, &[byte]);
    }
}

/// Puts bytes behind a header, few or up to those that no header has.
fn lengthen(rng: &mut Rng, file: &mut Vec<u8>) {
    let bytes = *rng.pick(&[1, 7, 255, 256, 4_096, 66_000]);
    let filler = *rng.pick(&[&b" "[..], b"\0", b"L/min   ", b"l/min   ", b"\xFF\x7F"]);
    let filler = filler.iter().copied().cycle();
    file.extend(filler.take(bytes));
}
