//! The formulas of links, the same for both solvers.

use crate::fields::{each, has, lowest, only, without};
use crate::text::Refusal;

/// What a link works out; the numbers of a ratio or a sum may still be any.
#[derive(Clone, Copy, Debug, PartialEq, Eq)]
pub enum Formula {
    None,
    /// p and q.
    Ratio(u16, u16),
    /// The field that is the sum of the others.
    Sum(u8),
}

impl Formula {
    /// The checks 4, 6, 7, 9 and 15 of a formula for a link number. `size` is 0
    /// while unopened; `covered_by` gives the covered fields of a number below
    /// 128, none where it is not in use.
    pub fn check(
        self,
        id: u8,
        size: usize,
        covered_by: impl FnOnce(usize) -> u64,
    ) -> Result<(), Refusal> {
        if size == 0 {
            return Err(Refusal::NotOpen);
        }
        if id > 127 {
            return Err(Refusal::BadLink);
        }
        if matches!(self, Formula::Sum(field) if field as usize >= size) {
            return Err(Refusal::NoSuchField);
        }
        match covered_by(id as usize) {
            0 => Err(Refusal::NoSuchLink),
            covered if !self.fits(covered) => Err(Refusal::BadFormula),
            _ => Ok(()),
        }
    }

    /// Whether a link over these covered fields can have it.
    fn fits(self, covered: u64) -> bool {
        match self {
            Formula::None => true,
            Formula::Ratio(p, q) => p > 0 && q > 0 && covered.count_ones() == 2,
            Formula::Sum(field) => has(covered, field as usize) && covered != only(field as usize),
        }
    }

    /// The value of the field that a link over these covered fields sets; without
    /// a formula the one that it has. None outside the limits.
    #[inline]
    pub fn result(self, covered: u64, set: usize, values: &[i32; 64]) -> Option<i32> {
        let others = without(covered, set);
        let value = |field: usize| i64::from(values[field & 63]);
        let result = match self {
            Formula::None => value(set),
            Formula::Ratio(p, q) => {
                let read = lowest(others);
                let (times, by) = if read < set { (p, q) } else { (q, p) };
                rounded(value(read) * i64::from(times), u64::from(by))
            }
            Formula::Sum(field) => {
                let total: i64 = each(others).map(value).sum();
                match field as usize == set {
                    true => total,
                    // In the total the field stands once too often.
                    false => 2 * value(field as usize) - total,
                }
            }
        };
        i32::try_from(result).ok()
    }
}

/// A quotient rounded to nearest, halves away from zero.
#[inline]
fn rounded(dividend: i64, divisor: u64) -> i64 {
    let size = (dividend.unsigned_abs() + divisor / 2) / divisor;
    match dividend < 0 {
        true => -(size as i64),
        false => size as i64,
    }
}
