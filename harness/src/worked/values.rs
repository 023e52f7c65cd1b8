//! Values and formulas (document 02, request 2).
//!
//! No reply tells a value, only how many changed (request 6). It is seen by a sum: a
//! field x, which nothing else covers, and a link that makes a field s the sum of x
//! and the field looked at. A kind 07 on x is then refused exactly where the sum is
//! outside the limits.
//! It runs the whole plan, so it is a look only where that changes nothing else:
//! where each held formula is right, as after every accepted kind 07.

pub mod frames;
pub mod ratios;
pub mod refusals;
pub mod steps;
pub mod sums;

use super::{add, owned, Lines, Worked};
use crate::plain::hex;

/// The limits of a value.
pub const LEAST: i32 = -2_147_483_648;
pub const GREATEST: i32 = 2_147_483_647;

/// The number of the link that looks at a value.
const LOOKING: u8 = 127;

/// A text in parts, each with the values of the fields after it. The panel's
/// last two fields and link 127 are left free to look at the values of the others.
pub struct Valued {
    pub name: String,
    pub parts: Vec<Part>,
}

/// Lines with their replies, and the values after them, but for the last two
/// fields, which are zero.
pub struct Part {
    pub lines: Lines,
    pub values: Vec<i32>,
    /// Whether each held formula is right, so that a look changes nothing.
    pub settled: bool,
}

impl Valued {
    pub(super) fn new(name: &str) -> Valued {
        Valued {
            name: name.to_string(),
            parts: Vec::new(),
        }
    }

    /// A further part, after which each held formula is right.
    pub(super) fn part(self, lines: &[(&str, &str)], values: &[i32]) -> Valued {
        self.with(owned(lines), values, true)
    }

    /// A further part, after which some held formula is not right.
    pub(super) fn unsettled(self, lines: &[(&str, &str)], values: &[i32]) -> Valued {
        self.with(owned(lines), values, false)
    }

    fn with(mut self, lines: Lines, values: &[i32], settled: bool) -> Valued {
        self.parts.push(Part {
            lines,
            values: values.to_vec(),
            settled,
        });
        self
    }

    /// The lines of a part and of all before it.
    fn lines_up_to(&self, part: usize) -> Lines {
        let parts = self.parts[..=part].iter();
        parts.flat_map(|part| part.lines.clone()).collect()
    }

    /// The text up to each part, with the values of all fields after it.
    pub fn texts(&self) -> Vec<(Worked, Vec<i32>)> {
        let text = |(place, part): (usize, &Part)| {
            let text = Worked::of_lines(&self.name, &self.lines_up_to(place));
            (text, [&part.values[..], &[0, 0]].concat())
        };
        self.parts.iter().enumerate().map(text).collect()
    }

    /// The whole text, and the text up to each part with looks at all its values.
    pub(super) fn looked_at(&self) -> Vec<Worked> {
        let whole = self.lines_up_to(self.parts.len() - 1);
        let mut texts = vec![Worked::of_lines(&self.name, &whole)];
        let parts = self.parts.iter().enumerate();
        for (place, part) in parts.filter(|(_, part)| part.settled) {
            let mut lines = self.lines_up_to(place);
            let fields = part.values.len() as u8 + 2;
            for (field, &value) in (0..).zip(&part.values) {
                lines.extend(look(fields, field, value));
            }
            texts.push(Worked::of_lines(&self.name, &lines));
        }
        texts
    }
}

/// How many lines a look has.
pub const LOOK: usize = 7;

/// Lines with the replies that they have exactly where a field has this value,
/// on a panel of so many fields in which x and s are zero. Behind them x and s are
/// zero again and their stays are the first; all else is as before.
pub fn look(fields: u8, field: u8, value: i32) -> Lines {
    let (x, s) = (fields - 2, fields - 1);
    // What x may be at most or at least, and one step more. A value of zero is
    // both at most and at least zero, so that x and s then change twice.
    let (within, further, reply) = match value {
        0 => (GREATEST, LEAST, "0002"),
        1.. => (GREATEST - value, GREATEST - value + 1, "FF0D"),
        _ => (LEAST - value, LEAST - value - 1, "FF0D"),
    };
    let stored = changed(&[0, 0], &[within, value + within]);
    let last = if value == 0 { further } else { within };
    owned(&[
        (&add(LOOKING, 0, [field, x, s | 0x80]), "0001"),
        (&sum(LOOKING, s), "0000"),
        (&store(x, within), &stored),
        (&store(x, further), reply),
        (&hex(&[3, LOOKING]), "0001"),
        (&store(x, 0), &changed(&[last], &[0])),
        // The sum was the greatest or the least value.
        (&store(s, 0), "0001"),
    ])
}

/// The reply to a kind 07 that gives fields these values in place of those and turns
/// nothing: "every field whose value changed".
fn changed(before: &[i32], after: &[i32]) -> String {
    let pairs = before.iter().zip(after);
    hex(&[0, pairs.filter(|(old, new)| old != new).count() as u8])
}

/// A line of kind 07.
pub fn store(field: u8, value: i32) -> String {
    hex(&[7, field]) + &hex(&value.to_be_bytes())
}

/// A line of kind 08 with a ratio.
fn ratio(id: u8, p: u16, q: u16) -> String {
    hex(&[8, id, 1]) + &hex(&p.to_be_bytes()) + &hex(&q.to_be_bytes())
}

/// A line of kind 08 with a sum.
fn sum(id: u8, field: u8) -> String {
    hex(&[8, id, 2, field])
}

/// Every text with values.
pub fn valued() -> Vec<Valued> {
    let groups = [ratios::all(), sums::all(), steps::all(), refusals::all()];
    groups.into_iter().flatten().collect()
}

/// Every text of these files as a whole output.
pub fn all() -> Vec<Worked> {
    let valued = valued();
    let looked_at = valued.iter().flat_map(Valued::looked_at);
    looked_at.chain(frames::all()).collect()
}
