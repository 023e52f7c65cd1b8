//! Where a line is wrong (document 02, request 1): "FF 01 and two bytes (most
//! significant first ..), the offset from 0 in the line of the first character
//! that is not a digit or A-F; where there is none, the line's length (odd or
//! empty)".

use super::edges::worked;
use super::{tally_line, Worked};

/// Lines with their replies.
type Replies = &'static [(&'static [u8], &'static str)];

/// A wrong character first, in the middle and last, in lines of an even count.
const PLACES: Replies = &[
    (b"G101", "FF010000"),
    (b"0G01", "FF010001"),
    (b"01G1", "FF010002"),
    (b"010G", "FF010003"),
    (b"G0", "FF010000"),
    (b"0G", "FF010001"),
    (b"0x", "FF010001"),
    (b" 0101 ", "FF010000"),
    (b"01 01 ", "FF010002"),
    (b"010\r", "FF010003"),
    (b"01\r01\r", "FF010002"),
    (b"02000080818283848586g7", "FF010014"),
    (b"0200008081828384858687xx", "FF010016"),
];

/// "The first character": others may follow it.
const SEVERAL: Replies = &[
    (b"GG", "FF010000"),
    (b"G1G1", "FF010000"),
    (b"0G0G", "FF010001"),
    (b"01GH", "FF010002"),
    (b"0101gGgG", "FF010004"),
    (b"02 00 00 80 81", "FF010002"),
    (b"\x80\xFF\x00\r", "FF010000"),
];

/// An odd count of digits, or none: the length.
const LENGTHS: Replies = &[
    (b"", "FF010000"),
    (b"0", "FF010001"),
    (b"F", "FF010001"),
    (b"010", "FF010003"),
    (b"050", "FF010003"),
    (b"01020", "FF010005"),
    (b"020000808", "FF010009"),
    (b"0123456789ABCDE", "FF01000F"),
    (b"0123456789ABCDEF0", "FF010011"),
];

/// A wrong character in a line of an odd count: the character is told.
const BOTH: Replies = &[
    (b"G", "FF010000"),
    (b"a", "FF010000"),
    (b"\0", "FF010000"),
    (b"0x1", "FF010001"),
    (b"G01", "FF010000"),
    (b"0G1", "FF010001"),
    (b"01G", "FF010002"),
    (b"01 02", "FF010002"),
    (b"0101G", "FF010004"),
    (b"G1G1G", "FF010000"),
    (b"010101\r", "FF010006"),
    (b"0101\r", "FF010004"),
];

/// Characters beside the digits and the letters A to F, lower case, blanks and
/// bytes above 7F: each is tried as the last but one of four and as the last.
const OTHERS: &[u8] = b"/:@G`abcdefg \t\r\x0B\0-.\x7F\x80\xB0\xB9\xC1\xC6\xFF";

/// Offsets with their replies. The last one is that of the last character of the
/// longest line.
const OFFSETS: [(usize, &str); 19] = [
    (9, "FF010009"),
    (10, "FF01000A"),
    (15, "FF01000F"),
    (16, "FF010010"),
    (254, "FF0100FE"),
    (255, "FF0100FF"),
    (256, "FF010100"),
    (257, "FF010101"),
    (511, "FF0101FF"),
    (512, "FF010200"),
    (4_095, "FF010FFF"),
    (4_096, "FF011000"),
    (32_767, "FF017FFF"),
    (32_768, "FF018000"),
    (65_279, "FF01FEFF"),
    (65_280, "FF01FF00"),
    (65_532, "FF01FFFC"),
    (65_533, "FF01FFFD"),
    (65_534, "FF01FFFE"),
];

/// Every text of this file.
pub fn all() -> Vec<Worked> {
    let mut texts = vec![every_line()];
    texts.extend(last_lines());
    texts.extend(OFFSETS.into_iter().flat_map(at_offset));
    texts
}

/// All short lines with their replies.
fn lines() -> Vec<(Vec<u8>, &'static str)> {
    let tables = [PLACES, SEVERAL, LENGTHS, BOTH].into_iter().flatten();
    let listed = tables.map(|(line, reply)| (line.to_vec(), *reply));
    let others = OTHERS.iter().flat_map(|&other| {
        [
            (vec![b'0', b'1', other, b'1'], "FF010002"),
            (vec![b'0', b'1', b'0', other], "FF010003"),
        ]
    });
    listed.chain(others).collect()
}

/// All short lines in one text, each behind one that is accepted: an offset is
/// from the start of its line.
fn every_line() -> Worked {
    let (mut text, mut replies) = (b"0101\n".to_vec(), vec!["0000"]);
    for (line, reply) in lines() {
        text.extend([b"0400\n", &line[..], b"\n"].concat());
        replies.extend(["0000", reply]);
    }
    let tally = tally_line(&replies);
    replies.push(&tally);
    worked("lines with an offset", text, &replies)
}

/// Each short line alone, with its LF and without. The tally has the number of
/// the refusal and nothing of the offset.
fn last_lines() -> Vec<Worked> {
    let mut texts = Vec::new();
    for (line, reply) in lines() {
        let output = [reply, "EE00000100000000000101"];
        texts.push(worked("offset, LF", [&line[..], b"\n"].concat(), &output));
        if !line.is_empty() {
            texts.push(worked("offset, no LF", line, &output));
        }
    }
    texts
}

/// A line whose first wrong character is at an offset: its last one, one that
/// others follow, the CR of a CR LF, and the end of an odd count of digits.
fn at_offset((offset, reply): (usize, &str)) -> Vec<Worked> {
    let digits = "0123456789ABCDEF".repeat(offset / 16 + 1)[..offset].to_string();
    let mut lines = vec![
        digits.clone() + "G",
        digits.clone() + "/\n",
        digits.clone() + "g0",
        digits.clone() + "G000G\n",
        digits.clone() + "\r\n",
    ];
    if offset % 2 == 1 {
        lines.extend([digits.clone() + "\n", digits]);
    }
    lines.retain(|line| line.len() <= 65_535);
    let output = [reply, "EE00000100000000000101"];
    let name = format!("offset {offset}");
    let text = |line| worked(&name, line, &output);
    lines.into_iter().map(text).collect()
}
