//! Values worked out apart from the solver's own record: from the book's links
//! and formulas and from what Plan answers.

use super::book::{Book, Name};
use super::held::{of_field, reads, Held};

/// A formula as the frame gives it.
#[derive(Clone, Copy, Debug, PartialEq, Eq)]
pub enum Rule {
    /// "Higher field = lower × p / q": p and q.
    Ratio(i128, i128),
    /// The field that is the sum of the others.
    Sum(u8),
}

/// The formula of a frame of kind 08.
pub fn rule(frame: &[u8]) -> Rule {
    let number = |high: u8, low: u8| 256 * i128::from(high) + i128::from(low);
    match *frame {
        [8, _, 1, a, b, c, d] => Rule::Ratio(number(a, b), number(c, d)),
        [8, _, 2, field] => Rule::Sum(field),
        _ => panic!("{frame:?} has no formula"),
    }
}

/// The formula of the setter of a field, if it is a link that has one.
pub fn rule_of(book: &Book, entry: &Held) -> Option<Rule> {
    match entry.setter {
        Name::Link(id) => book.rule(id),
        Name::Stay(_) => None,
    }
}

/// The values after a run of the whole plan, of whatever size. Each field is
/// worked out from those that it comes from, in no order of the plan.
pub fn run_plan(book: &Book, held: &[Held], values: &[i32]) -> Vec<i128> {
    let value = |field| value_of(book, held, values, field);
    (0..book.fields()).map(value).collect()
}

fn value_of(book: &Book, held: &[Held], values: &[i32], field: u8) -> i128 {
    let entry = of_field(held, field);
    let value = |field: u8| value_of(book, held, values, field);
    match rule_of(book, entry) {
        None => i128::from(values[field as usize]),
        Some(Rule::Ratio(p, q)) => {
            let read = reads(book, entry)[0];
            let (times, by) = if read < field { (p, q) } else { (q, p) };
            nearest(value(read) * times, by)
        }
        Some(Rule::Sum(f)) => {
            let read = reads(book, entry);
            let total = |read: &[u8]| read.iter().map(|&read| value(read)).sum::<i128>();
            // Twice f, less f and the rest.
            match read.contains(&f) {
                true => 2 * value(f) - total(&read),
                false => total(&read),
            }
        }
    }
}

/// The whole number nearest to a quotient; of two that are equally near the one
/// further from zero.
fn nearest(dividend: i128, divisor: i128) -> i128 {
    let below = dividend.div_euclid(divisor);
    let distance = |whole: i128| (dividend - whole * divisor).abs();
    match distance(below).cmp(&distance(below + 1)) {
        std::cmp::Ordering::Less => below,
        std::cmp::Ordering::Greater => below + 1,
        std::cmp::Ordering::Equal if below < 0 => below,
        std::cmp::Ordering::Equal => below + 1,
    }
}

/// Whether a field's value is right by the formula of its setter, as an equation
/// between the values: of a ratio within half a step, and at half a step the
/// greater of the two by size; of a sum exactly.
pub fn is_right(book: &Book, entry: &Held, rule: Rule, values: &[i32]) -> bool {
    let value = |field: u8| i128::from(values[field as usize]);
    let read = reads(book, entry);
    match rule {
        Rule::Ratio(p, q) => {
            let (times, by) = if read[0] < entry.field {
                (p, q)
            } else {
                (q, p)
            };
            let (product, result) = (value(read[0]) * times, value(entry.field) * by);
            let twice = 2 * (result - product).abs();
            twice < by || twice == by && result.abs() > product.abs()
        }
        Rule::Sum(f) => {
            let covered = book.member(entry.setter).covered;
            let total: i128 = covered.into_iter().map(value).sum();
            total == 2 * value(f)
        }
    }
}
