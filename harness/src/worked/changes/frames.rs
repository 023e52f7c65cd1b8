//! The frame of kind 06, "with the body of frame 02": its lengths, bit 6, and the
//! order of its checks.

use super::super::{checks_before_opening, order_of_checks, push, Lines};
use super::Worked;
use crate::plain::hex;

/// Every text of this file.
pub fn all() -> Vec<Worked> {
    vec![
        lengths(true),
        lengths(false),
        order_of_checks("order of checks of a change", &LINKS, &CHECKS),
        checks_before_opening("checks of a change before the opening", &CHECKS, &OPENED),
        every_byte(),
        every_field_byte_on_eight_fields(),
    ]
}

/// Kind 06 "with the body of frame 02", of 1 to 14 bytes. Over fields 0 to k, all of
/// them outputs, link 0 sets k, which has the weakest stay: a field more moves 2.
fn lengths(open: bool) -> Worked {
    let mut lines = Lines::new();
    if open {
        push(&mut lines, &[("0140", "0000"), ("02000080", "0001")]);
    }
    let mut frame = vec![6, 0, 0];
    frame.extend(0x80..=0x8A);
    for length in 1..=14 {
        let reply = match length {
            4..=11 if !open => "FF04",
            4 => "0000",
            5..=11 => "0002",
            _ => "FF02",
        };
        push(&mut lines, &[(&hex(&frame[..length]), reply)]);
    }
    Worked::of_lines("lengths of a change", &lines)
}

/// A panel of 8 fields. Link 0 (required) reads 0 and sets 1, link 1 (required) sets
/// 2, link 127 (level 5) covers all eight and may set 7; number 4 is not in use.
const LINKS: [(&str, &str); 4] = [
    ("0108", "0000"),
    ("0200000081", "0001"),
    ("02010082", "0001"),
    ("027F050001020304050687", "0001"),
];

/// Each line has two faults or more, or the first that is given is on its edge.
const CHECKS: [(&str, &str); 38] = [
    // BadFrame before all others: the length
    ("06", "FF02"),
    ("0600", "FF02"),
    ("06FF", "FF02"),
    ("060000", "FF02"),
    ("0680FF", "FF02"),
    ("060000808182838485868788", "FF02"),
    ("06FFFF808182838485868788", "FF02"),
    // bit 6 of a field byte, in an output and in a field that is read
    ("060000C0", "FF02"),
    ("06000040", "FF02"),
    ("0600008041", "FF02"),
    ("0600008140", "FF02"),
    ("0680FFC8", "FF02"),
    ("060410C0", "FF02"),
    // BadLink before NoSuchField and NoSuchLink: the number
    ("06800081", "FF06"),
    ("06FF0088", "FF06"),
    ("0680108800", "FF06"),
    // the level
    ("06001081", "FF06"),
    ("0600FF88", "FF06"),
    ("06041088", "FF06"),
    // fields that do not rise, by their low six bits
    ("0600008100", "FF06"),
    ("0600000080", "FF06"),
    ("0600008180", "FF06"),
    ("0604008880", "FF06"),
    ("0604008988", "FF06"),
    // no output
    ("06000001", "FF06"),
    ("0604000809", "FF06"),
    // NoSuchField before NoSuchLink and before Conflict; also of a field that is read
    ("06000088", "FF07"),
    ("0600008208", "FF07"),
    ("06040088", "FF07"),
    ("06040080BF", "FF07"),
    // NoSuchLink before Conflict, and where an add would be accepted
    ("06040082", "FF09"),
    ("06040580", "FF09"),
    ("067E0F87", "FF09"),
    // Conflict: link 1 holds 2
    ("0600000082", "FF0A"),
    // Loop: link 0 reads 0
    ("0601008001", "FF0B"),
    // accepted: the edges of level, number and fields
    ("06000F0081", "0000"),
    ("067F000001020304050687", "0000"),
    ("067F0F87", "0000"),
];

/// A panel that the lines before its opening left as new.
const OPENED: [(&str, &str); 2] = [("0101", "0000"), ("06000080", "FF09")];

/// Every byte as the number, as the level and as a field byte, on a panel of 64 fields
/// in which link 7 (level 5) sets 8. At every level it takes 8 again; each field byte
/// that is an output leads it to the next field.
fn every_byte() -> Worked {
    let mut lines = Lines::new();
    push(&mut lines, &[("0140", "0000"), ("02070588", "0001")]);
    for byte in 0..=255 {
        let of_number = match byte {
            7 => "0000",
            0..128 => "FF09",
            _ => "FF06",
        };
        let of_level = if byte < 16 { "0000" } else { "FF06" };
        let number = hex(&[6, byte, 5, 0x88]);
        let level = hex(&[6, 7, byte, 0x88]);
        push(&mut lines, &[(&number, of_number), (&level, of_level)]);
    }
    for byte in 0..=255 {
        let reply = match byte {
            0..64 => "FF06",
            128..192 => "0002",
            _ => "FF02",
        };
        push(&mut lines, &[(&hex(&[6, 7, 5, byte]), reply)]);
    }
    Worked::of_lines("every byte of a change", &lines)
}

/// Every byte as a field that is read, on a panel of 8 fields in which link 7 sets 0:
/// it still does.
fn every_field_byte_on_eight_fields() -> Worked {
    let mut lines = Lines::new();
    push(&mut lines, &[("0108", "0000"), ("02070580", "0001")]);
    for byte in 0..=255 {
        let reply = match byte {
            64..128 | 192..=255 => "FF02",
            // Field 0 again does not rise.
            0 | 128 => "FF06",
            1..8 => "0000",
            8..64 | 136..192 => "FF07",
            // An output, weaker than field 0 and another one than the byte before.
            129..136 => "0002",
        };
        push(&mut lines, &[(&hex(&[6, 7, 5, 0x80, byte]), reply)]);
    }
    Worked::of_lines("every second field byte of a change", &lines)
}
