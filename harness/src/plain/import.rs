//! "Import airflow channels from EDF" (document 02, request 3): from a file to
//! the frames that make its fields, links and ratios.

use super::frame::hex;
use super::refusal::Refusal;

/// The fields of a header with their widths, in their order.
type Layout = [(&'static str, usize); 10];

/// "A European Data Format header, 256 bytes": the fields of the file, "widths as
/// in the public EDF specification".
const OF_THE_FILE: Layout = [
    ("version", 8),
    ("patient", 80),
    ("recording", 80),
    ("start date", 8),
    ("start time", 8),
    ("header length", 8),
    ("reserved", 44),
    ("data records", 8),
    ("duration", 8),
    ("signal count", 4),
];

/// "And 256 per signal": the fields of a signal. The specification has the labels
/// of all signals first, then the transducer types of all signals, and so on.
const OF_A_SIGNAL: Layout = [
    ("label", 16),
    ("transducer type", 80),
    ("physical dimension", 8),
    ("physical minimum", 8),
    ("physical maximum", 8),
    ("digital minimum", 8),
    ("digital maximum", 8),
    ("prefiltering", 80),
    ("samples", 8),
    ("reserved", 32),
];

/// "L/min or L/s".
const FLOW_UNITS: [&[u8]; 2] = [b"L/min", b"L/s"];

/// The whole output for a whole file: "these as frames, one a line, and every line
/// written from here on ends in LF"; for a refusal "only the line FF and the
/// number is written".
pub fn import(file: &[u8]) -> Vec<u8> {
    let frames = match frames_of(file) {
        Ok(frames) => frames,
        Err(refusal) => vec![vec![0xFF, refusal.number()]],
    };
    let lines = frames.iter().map(|frame| hex(frame) + "\n");
    lines.collect::<String>().into_bytes()
}

/// The frames for a file: "the opening, then for each i the add and the ratio".
fn frames_of(file: &[u8]) -> Result<Vec<Vec<u8>>, Refusal> {
    let flows = flow_count(file)?;
    let mut frames = vec![opening(flows)];
    for i in 0..flows {
        frames.push(add(i));
        frames.push(ratio(i));
    }
    Ok(frames)
}

/// The number of signals that are flows. The answers 16, 17 and 18 are "in that
/// order"; FlowCount: "none, or more than 32".
fn flow_count(file: &[u8]) -> Result<u8, Refusal> {
    let count = signal_count(file)?;
    let units: Vec<&[u8]> = (0..count).map(|signal| unit(file, count, signal)).collect();
    if units.iter().any(|unit| is_unclear(unit)) {
        return Err(Refusal::UnclearUnit);
    }
    let flows = units.iter().filter(|unit| is_flow(unit)).count();
    match flows {
        1..=32 => Ok(flows as u8),
        _ => Err(Refusal::FlowCount),
    }
}

/// The signal count of a good header. BadHeader: "file shorter than its header,
/// signal count not a plain number from 1 to 254, header length not the plain
/// number 256 × (count + 1)". What stands behind the header is ignored.
fn signal_count(file: &[u8]) -> Result<usize, Refusal> {
    if file.len() < 256 {
        return Err(Refusal::BadHeader);
    }
    let count = plain_number(file_field(file, "signal count"));
    let Some(count @ 1..=254) = count else {
        return Err(Refusal::BadHeader);
    };
    let length = 256 * (count + 1);
    if plain_number(file_field(file, "header length")) != Some(length) || file.len() < length {
        return Err(Refusal::BadHeader);
    }
    Ok(count)
}

/// "A plain number is one or more decimal digits, then only spaces to the end of
/// its header field."
fn plain_number(field: &[u8]) -> Option<usize> {
    let digits = field.iter().take_while(|byte| byte.is_ascii_digit());
    let (digits, rest) = field.split_at(digits.count());
    if digits.is_empty() || rest.iter().any(|&byte| byte != b' ') {
        return None;
    }
    let digits = digits.iter().map(|digit| usize::from(digit - b'0'));
    Some(digits.fold(0, |number, digit| 10 * number + digit))
}

/// A signal's "physical dimension, trailing spaces dropped", of so many signals. No
/// other character is dropped.
fn unit(file: &[u8], count: usize, signal: usize) -> &[u8] {
    let mut unit = signal_field(file, count, signal, "physical dimension");
    while let Some(shorter) = unit.strip_suffix(b" ") {
        unit = shorter;
    }
    unit
}

/// A "signal whose physical dimension .. is L/min or L/s".
fn is_flow(unit: &[u8]) -> bool {
    FLOW_UNITS.contains(&unit)
}

/// UnclearUnit: "one of the two texts but for letter case".
fn is_unclear(unit: &[u8]) -> bool {
    let same = |text: &&[u8]| text.eq_ignore_ascii_case(unit);
    FLOW_UNITS.iter().any(same) && !is_flow(unit)
}

/// A field of the file.
fn file_field<'a>(file: &'a [u8], name: &str) -> &'a [u8] {
    let (before, width) = place(&OF_THE_FILE, name);
    &file[before..before + width]
}

/// A field of a signal, of so many signals. The fields of the file come before it,
/// the fields before it of every signal, and its own of the signals before.
fn signal_field<'a>(file: &'a [u8], count: usize, signal: usize, name: &str) -> &'a [u8] {
    let (before, width) = place(&OF_A_SIGNAL, name);
    let start = total(&OF_THE_FILE) + count * before + signal * width;
    &file[start..start + width]
}

/// The widths of all fields before one together, and its own.
fn place(layout: &Layout, name: &str) -> (usize, usize) {
    let place = layout.iter().position(|(other, _)| *other == name);
    let place = place.expect("a field of the layout");
    (total(&layout[..place]), layout[place].1)
}

/// The widths of some fields together.
fn total(fields: &[(&str, usize)]) -> usize {
    fields.iter().map(|(_, width)| width).sum()
}

/// 01 n: a panel with "fields 2i (per minute) and 2i + 1 (per second)" for each i.
fn opening(flows: u8) -> Vec<u8> {
    vec![1, 2 * flows]
}

/// 02 id level, then the field bytes: "a required link i with both as outputs".
/// Level 0 is the required one, and bit 7 is "set if it is an output".
fn add(i: u8) -> Vec<u8> {
    vec![2, i, 0, 0x80 | (2 * i), 0x80 | (2 * i + 1)]
}

/// 08 id 01 pppp qqqq: "the ratio 1 to 60".
fn ratio(i: u8) -> Vec<u8> {
    let [p, q] = [1u16, 60].map(u16::to_be_bytes);
    vec![8, i, 1, p[0], p[1], q[0], q[1]]
}
