//! Full panels: 64 fields, up to 128 links, up to eight outputs a link.

use super::{add, change, push, Lines, Worked};
use crate::plain::hex;

/// Every text of this file.
pub fn all() -> Vec<Worked> {
    vec![
        longest_output(),
        chain_turned(),
        chain_planned(),
        row_with_127_links(),
        row_with_128_links(),
        row_changed(),
        threes_touched(),
        threes_turned(),
    ]
}

/// Field bytes of outputs.
fn outputs(fields: std::ops::Range<u8>) -> impl Iterator<Item = u8> {
    fields.map(|field| field | 0x80)
}

/// The reply to a plan: field, setter (80 for the stay), strength.
fn plan(entries: impl IntoIterator<Item = [u8; 3]>) -> String {
    let listed: Vec<u8> = entries.into_iter().flatten().collect();
    hex(&[0, (listed.len() / 3) as u8]) + &hex(&listed)
}

/// The plan right after the opening.
pub fn plan_of_stays(fields: u8) -> String {
    plan((0..fields).map(|field| [field, 0x80, 16 + field]))
}

/// The opening of 64 fields.
fn opening() -> Lines {
    vec![("0140".to_string(), "0000".to_string())]
}

/// A text of 65,535 bytes with the longest output: 21,843 plans of 64 fields,
/// and an empty line in the last byte.
pub fn longest_output() -> Worked {
    let mut lines = opening();
    lines.extend(vec![("05".to_string(), plan_of_stays(64)); 21_843]);
    push(&mut lines, &[("", "FF010000")]);
    Worked::new("longest output", &lines, "EE00555500555400000101")
}

/// 57 required links over eight neighbouring fields each, all of them outputs.
/// Link i sets field i + 7, the weakest at that time, and reads the seven
/// below it. Strength is followed along very many ways: a solver that works
/// out a field's strength once for each way does not come to an end.
pub fn chain() -> Lines {
    let mut lines = opening();
    let links = (0..57).map(|id| (add(id, 0, outputs(id..id + 8)), "0001".to_string()));
    lines.extend(links);
    lines
}

/// The chain's plan. Fields 0 to 6 keep their stays. The strength of field 7 is
/// the largest of those, 22, and it passes on to all the others.
pub fn chain_plan() -> String {
    let stays = (0..7).map(|field| [field, 0x80, 16 + field]);
    let set = (7..64).map(|field| [field, field - 7, 22]);
    plan(stays.chain(set))
}

/// Turned at its end and at its start. A link that may only set field 63: the
/// walk goes down by sevens to 7, then to 6. Link 56 would set 56 and read 57,
/// whose link 50 reads 56: a loop. One that may only set field 7: the walk goes
/// from 7 to 6, and link 0 sets 6 and reads 7. The strength of 7 is 0, that of
/// 6 is 21 from field 5, and 21 passes on to fields 8 to 63. Field 8 reads 6 and 7,
/// and each field above it reads the one below: 58 fields, from 6 on, are redrawn.
fn chain_turned() -> Worked {
    let mut lines = chain();
    push(&mut lines, &[("024000BF", "FF0B"), ("05", &chain_plan())]);
    let stays = (0..6).map(|field| [field, 0x80, 16 + field]);
    let turned = [[7, 64, 0], [6, 0, 21]];
    let set = (8..64).map(|field| [field, field - 7, 21]);
    let turned = plan(stays.chain(turned).chain(set));
    push(&mut lines, &[("02400087", "003A"), ("05", &turned)]);
    Worked::new("chain turned", &lines, "EE00003E00003D0000010B")
}

/// The chain and plans up to the limit of the text.
fn chain_planned() -> Worked {
    let mut lines = chain();
    lines.extend(vec![("05".to_string(), chain_plan()); 21_406]);
    Worked::new("chain planned", &lines, "EE0053D80053D800000000")
}

/// 127 links. Links 1 to 63 are required, link i reads field i - 1 and sets
/// field i. The other 64, level 5, wait: each is permitted eight of the fields
/// 1 to 63, all of strength 0.
fn row() -> Lines {
    let mut lines = opening();
    let held = (1..64).map(|id| (add(id, 0, [id - 1, id | 0x80]), "0001".to_string()));
    lines.extend(held);
    let waiting = row_waiting();
    lines.extend(waiting.map(|(id, fields)| (add(id, 5, outputs(fields)), "0000".to_string())));
    lines
}

/// The numbers of the row's links that wait, each with the fields that it may set.
fn row_waiting() -> impl Iterator<Item = (u8, std::ops::Range<u8>)> {
    let places = [0].into_iter().chain(64..127).zip(0..);
    places.map(|(id, place): (u8, u8)| {
        let first = 1 + place % 56;
        (id, first..first + 8)
    })
}

/// The row's plan, with the setter and the strength of field 63.
fn row_plan(setter: u8, strength: u8) -> String {
    let middle = (1..63).map(|field| [field, field, 0]);
    let ends = ([[0, 0x80, 16]], [[63, setter, strength]]);
    plan(ends.0.into_iter().chain(middle).chain(ends.1))
}

/// Conflict and Loop for the last free number. A required link for field 63,
/// strength 0, is not blocked. One that sets 0 and reads 63 closes a loop
/// through all 64 fields.
fn row_with_127_links() -> Worked {
    let mut lines = row();
    let plan = row_plan(63, 0);
    push(&mut lines, &[("027F00BF", "FF0A"), ("05", &plan)]);
    push(&mut lines, &[("027F00803F", "FF0B"), ("05", &plan)]);
    push(&mut lines, &[("027F0F803F", "FF0B"), ("05", &plan)]);
    Worked::new("row with 127 links", &lines, "EE0000860000830000030B")
}

/// With link 127, level 15, waiting for field 63, no number is free.
///
/// When link 1 goes, field 1 has strength 17, and the waiting links 0 and 119,
/// which are permitted fields 1 to 8, are blocked. The lower number, link 0,
/// would set 1 and read 2, whose link 2 reads 1: a loop. When link 63 goes,
/// links 118 (level 5, fields 56 to 63) and 127 are blocked, and 118 sets 63.
fn row_with_128_links() -> Worked {
    let mut lines = row();
    push(&mut lines, &[("027F0FBF", "0000"), ("027F0FBF", "FF08")]);
    push(&mut lines, &[("0301", "FF0B"), ("05", &row_plan(63, 0))]);
    push(&mut lines, &[("033F", "0001"), ("05", &row_plan(118, 5))]);
    push(&mut lines, &[("033F", "FF09"), ("043F", "0000")]);
    Worked::new("row with 128 links", &lines, "EE00008800008500000309")
}

/// All numbers are in use and each link is changed in its turn; the plan is as before.
///
/// Links 1 to 63 to what they are. Without link i the stay of i blocks the waiting links
/// that may set i. The lowest number of them would set it and read its other seven
/// fields. For i up to 7 that is link 0, over fields 1 to 8: it would read i + 1, whose
/// link reads i, a loop. For the others the seven are i - 7 to i - 1, and then link i
/// takes field i back, of strength 5: moved 0.
///
/// The others to level 6, at which they wait too, and to level 0, a Conflict.
fn row_changed() -> Worked {
    let mut lines = row();
    push(&mut lines, &[("027F0FBF", "0000"), ("027F0FBF", "FF08")]);
    for id in 1..64 {
        let same = change(id, 0, [id - 1, id | 0x80]);
        push(&mut lines, &[(&same, if id < 8 { "FF0B" } else { "0000" })]);
    }
    for (id, fields) in row_waiting().chain([(127, 63..64)]) {
        let weaker = change(id, 6, outputs(fields.clone()));
        let required = change(id, 0, outputs(fields));
        push(&mut lines, &[(&weaker, "0000"), (&required, "FF0A")]);
    }
    push(&mut lines, &[("05", &row_plan(63, 0))]);
    Worked::new("row changed", &lines, "EE0001440000FB0000490A")
}

/// 128 links on 21 threes of fields a, a + 1, a + 2, a being 3b, and field 63.
/// Link 2b, required, is permitted a and a + 1, sets a + 1 and reads the other
/// two. Link 2b + 1, required, reads a and sets a + 2, which a + 1 is downstream
/// of: moved 2. The links from 42 on, level 15, each wait for some a + 2, of
/// strength 0.
fn threes() -> Lines {
    let mut lines = opening();
    for b in 0..21 {
        let a = 3 * b;
        let first = add(2 * b, 0, [a | 0x80, (a + 1) | 0x80, a + 2]);
        let second = add(2 * b + 1, 0, [a, (a + 2) | 0x80]);
        push(&mut lines, &[(&first, "0001"), (&second, "0002")]);
    }
    for id in 42..128 {
        let waiting = add(id, 15, [(3 * (id % 21) + 2) | 0x80]);
        push(&mut lines, &[(&waiting, "0000")]);
    }
    lines
}

/// The touch of a + 1 gives its stay level 16 and that of a one more than
/// before, so link 2b would turn to a and read a + 2, whose link reads a: a
/// loop, in each of the threes, and the order stays. The touch of 63 then moves
/// all other stays down one.
fn threes_touched() -> Worked {
    let mut lines = threes();
    for b in 0..21 {
        push(&mut lines, &[(&hex(&[4, 3 * b + 1]), "FF0B")]);
    }
    let three = |b: u8| {
        let (a, strength) = (3 * b, 17 + 3 * b);
        let [first, second] = [2 * b, 2 * b + 1];
        [
            [a, 0x80, strength],
            [a + 2, second, 0],
            [a + 1, first, strength],
        ]
    };
    let listed = plan((0..21).flat_map(three).chain([[63, 0x80, 16]]));
    push(&mut lines, &[("043F", "0000"), ("05", &listed)]);
    Worked::new("threes touched", &lines, "EE0000980000830000150B")
}

/// Without link 2b + 1 the first of the links that wait for a + 2 sets it and
/// reads nothing: moved 2, since link 2b reads a + 2 to set a + 1. Then the touch of
/// a + 1 turns link 2b to a: moved 2.
fn threes_turned() -> Worked {
    let mut lines = threes();
    for b in 0..21 {
        let (remove, touch) = (hex(&[3, 2 * b + 1]), hex(&[4, 3 * b + 1]));
        push(&mut lines, &[(&touch, "FF0B"), (&remove, "0002")]);
        push(&mut lines, &[(&touch, "0002")]);
    }
    let three = |b: u8| {
        let (a, strength) = (3 * b, 16 + (20 - b));
        let setter = 42 + b;
        [
            [a + 1, 0x80, strength],
            [a + 2, setter, 15],
            [a, 2 * b, strength],
        ]
    };
    let listed = plan((0..21).flat_map(three).chain([[63, 0x80, 79]]));
    push(&mut lines, &[("05", &listed)]);
    Worked::new("threes turned", &lines, "EE0000C10000AC0000150B")
}
