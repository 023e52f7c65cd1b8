//! The frames of kinds 07 and 08: their lengths, the formula kinds, and the order
//! of their checks.

use super::super::{checks_before_opening, order_of_checks, push};
use super::{Lines, Worked};
use crate::plain::hex;

/// Every text of this file.
pub fn all() -> Vec<Worked> {
    vec![
        lengths(true),
        lengths(false),
        order_of_checks("order of checks", &LINKS, &CHECKS),
        checks_before_opening("checks before the opening", &CHECKS, &OPENED),
        every_byte(),
    ]
}

/// "Another length or formula kind is a BadFrame": kind 07 of 1 to 12 bytes, and
/// kind 08 of 1 to 12 bytes with every formula kind. The bytes behind the formula
/// kind are 01. Where the value comes link 0 has a sum, of four bytes: both fields
/// change.
fn lengths(open: bool) -> Worked {
    let mut lines = Lines::new();
    if open {
        push(&mut lines, &[("0104", "0000"), ("0200008081", "0001")]);
    }
    let mut line = |frame: &[u8], right: bool| {
        let reply = match right {
            true if open && frame[0] == 7 => "0002",
            true if open => "0000",
            true => "FF04",
            false => "FF02",
        };
        push(&mut lines, &[(&hex(frame), reply)]);
    };
    for length in 1..=12 {
        let frame = [7, 0, 1, 1, 1, 1, 1, 1, 1, 1, 1, 1];
        line(&frame[..length], length == 6);
        for kind in 0..=255 {
            let frame = [8, 0, kind, 1, 1, 1, 1, 1, 1, 1, 1, 1];
            let right = (kind, length) == (1, 7) || (kind, length) == (2, 4);
            line(&frame[..length], right);
        }
    }
    Worked::of_lines("lengths", &lines)
}

/// A panel of 8 fields. Link 0 covers 0 and 1, link 1 covers 2, 3 and 4, link 2
/// only 5, link 3 all eight; number 4 is not in use.
const LINKS: [(&str, &str); 5] = [
    ("0108", "0000"),
    ("0200008081", "0001"),
    ("020105828384", "0001"),
    ("02020585", "0001"),
    ("0203098081828384858687", "0001"),
];

/// Each line has two faults or more, or the first that is given is on its edge.
const CHECKS: [(&str, &str); 44] = [
    // BadFrame before all others
    ("0780000000", "FF02"),
    ("07FF0000000000", "FF02"),
    ("08", "FF02"),
    ("0880", "FF02"),
    ("088001", "FF02"),
    ("0880010000000000", "FF02"),
    ("088002", "FF02"),
    ("0880024040", "FF02"),
    ("08800000", "FF02"),
    ("08800340", "FF02"),
    ("08800300000000", "FF02"),
    // BadLink before NoSuchField, NoSuchLink and BadFormula
    ("08800240", "FF06"),
    ("08800200", "FF06"),
    ("08800100000000", "FF06"),
    ("08FF0100010001", "FF06"),
    // NoSuchField before NoSuchLink and BadFormula; f is a whole byte
    ("08040208", "FF07"),
    ("087F02FF", "FF07"),
    ("08000208", "FF07"),
    ("08000280", "FF07"),
    ("08020248", "FF07"),
    // NoSuchLink before BadFormula
    ("08040207", "FF09"),
    ("08040100000000", "FF09"),
    ("087F0100010001", "FF09"),
    // BadFormula: p or q 0
    ("08000100000001", "FF0F"),
    ("08000100010000", "FF0F"),
    ("08000100000000", "FF0F"),
    ("08010100000001", "FF0F"),
    // a ratio of one, three or eight fields
    ("08020100010001", "FF0F"),
    ("08010100010001", "FF0F"),
    ("08030100010001", "FF0F"),
    // a sum into a field that is not covered
    ("08000202", "FF0F"),
    ("08010201", "FF0F"),
    ("08010205", "FF0F"),
    ("08020204", "FF0F"),
    // a sum of no field
    ("08020205", "FF0F"),
    // accepted: the edges of p, q and f
    ("08000100010001", "0000"),
    ("080001FFFFFFFF", "0000"),
    ("08000200", "0000"),
    ("08000201", "0000"),
    ("08010203", "0000"),
    ("08030207", "0000"),
    // NoSuchField of kind 07; f is a whole byte
    ("070800000000", "FF07"),
    ("078000000000", "FF07"),
    ("07FFFFFFFFFF", "FF07"),
];

/// A panel that the lines before its opening left as new.
const OPENED: [(&str, &str); 2] = [("0101", "0000"), ("070000000000", "0000")];

/// Every byte as the field of kind 07, as the link number of kind 08 and as the
/// field of a sum, on a panel of 64 fields in which link 7 covers 8 and 9.
fn every_byte() -> Worked {
    let mut lines = Lines::new();
    push(&mut lines, &[("0140", "0000"), ("0207008809", "0001")]);
    for byte in 0..=255 {
        let stored = match byte {
            8 => "FF0E",
            0..64 => "0000",
            _ => "FF07",
        };
        let of_link = match byte {
            7 => "0000",
            0..128 => "FF09",
            _ => "FF06",
        };
        let into_field = match byte {
            8 | 9 => "0000",
            0..64 => "FF0F",
            _ => "FF07",
        };
        push(
            &mut lines,
            &[
                (&hex(&[7, byte, 0, 0, 0, 0]), stored),
                (&hex(&[8, byte, 1, 0, 1, 0, 1]), of_link),
                (&hex(&[8, 7, 2, byte]), into_field),
            ],
        );
    }
    Worked::of_lines("every byte", &lines)
}
