//! "What the panel holds is read from what Plan answers right after the list,
//! each setter with its field; while unopened it holds nothing."

use super::book::{Book, Member, Name};
use super::choices::{counts, end_of_levels};
use harness::plain::Run;

/// One field of a plan.
#[derive(Clone, Copy, Debug, PartialEq, Eq)]
pub struct Held {
    pub field: u8,
    pub setter: Name,
    pub strength: u8,
}

/// The bytes of a line of digits.
pub fn bytes(digits: &str) -> Vec<u8> {
    let byte = |start| u8::from_str_radix(&digits[start..start + 2], 16).expect("digits");
    (0..digits.len()).step_by(2).map(byte).collect()
}

/// What the panel holds, in the order of the plan.
pub fn held(run: &Run) -> Vec<Held> {
    held_of(&run.clone().line(b"05"))
}

/// What the reply to a plan tells.
pub fn held_of(plan: &str) -> Vec<Held> {
    let reply = bytes(plan);
    if reply == [0xFF, 4] {
        return Vec::new();
    }
    assert_eq!(reply.len(), 2 + 3 * reply[1] as usize);
    let entry = |entry: &[u8]| Held {
        field: entry[0],
        setter: match entry[1] {
            0x80 => Name::Stay(entry[0]),
            id => Name::Link(id),
        },
        strength: entry[2],
    };
    reply[2..].chunks(3).map(entry).collect()
}

/// The entry of a field.
pub fn of_field(held: &[Held], field: u8) -> &Held {
    let mut entries = held.iter().filter(|entry| entry.field == field);
    let entry = entries.next().expect("every field is listed");
    assert!(entries.next().is_none(), "field {field} is listed twice");
    entry
}

/// The fields that the setter of a field reads.
pub fn reads(book: &Book, entry: &Held) -> Vec<u8> {
    let covered = book.member(entry.setter).covered;
    covered.into_iter().filter(|&f| f != entry.field).collect()
}

/// Whether following reads from a field comes back to a field on the way.
pub fn closed_walk(book: &Book, held: &[Held], field: u8, way: &mut Vec<u8>) -> bool {
    if way.contains(&field) {
        return true;
    }
    way.push(field);
    let reads = reads(book, of_field(held, field));
    let closed = reads.iter().any(|&read| closed_walk(book, held, read, way));
    way.pop();
    closed
}

/// The counts of what is held, for every level.
pub fn held_counts(book: &Book, held: &[Held]) -> Vec<usize> {
    let setters = held.iter().map(|entry| entry.setter);
    let levels: Vec<u8> = setters.map(|name| book.member(name).level).collect();
    counts(&levels, end_of_levels(&book.members()))
}

/// The members in force that hold no field.
pub fn waiting(book: &Book, held: &[Held]) -> Vec<Member> {
    let is_held = |member: &Member| held.iter().any(|entry| entry.setter == member.name);
    let members = book.members().into_iter();
    members.filter(|member| !is_held(member)).collect()
}
