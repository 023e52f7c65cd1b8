//! The formulas of links (document 02, request 2).

use super::panel::without;

/// What a link works out. The numbers are as in the frame, not yet checked.
#[derive(Clone, Copy, Debug, PartialEq, Eq)]
pub enum Formula {
    /// p and q of "higher field = lower × p / q".
    Ratio(u16, u16),
    /// The f that is "the sum of the other covered fields".
    Sum(u8),
}

impl Formula {
    /// Whether none of BadFormula applies: "p or q 0, wrong number of covered
    /// fields, f not covered". A ratio is for "a two-field link", a sum has
    /// other covered fields, "at least one".
    pub fn fits(self, covered: &[u8]) -> bool {
        match self {
            Formula::Ratio(p, q) => p > 0 && q > 0 && covered.len() == 2,
            Formula::Sum(field) => covered.contains(&field) && covered.len() > 1,
        }
    }

    /// The value of the field that a link over these covered fields sets, of
    /// whatever size.
    pub fn result(self, covered: &[u8], set: u8, values: &[i32]) -> i128 {
        let value = |field: u8| i128::from(values[field as usize]);
        let total = |fields: Vec<u8>| fields.into_iter().map(value).sum::<i128>();
        let others = without(covered, set);
        match self {
            // "Higher field = lower × p / q, or the reverse with q and p swapped."
            Formula::Ratio(p, q) => match others[0] < set {
                true => rounded(value(others[0]) * i128::from(p), i128::from(q)),
                false => rounded(value(others[0]) * i128::from(q), i128::from(p)),
            },
            // "The sum of the other covered fields".
            Formula::Sum(field) if field == set => total(others),
            // "A link that sets another one takes f less the rest."
            Formula::Sum(field) => value(field) - total(without(&others, field)),
        }
    }
}

/// A quotient "rounded to nearest, halves away from zero"; the divisor is above
/// zero. Away from zero is up, for the size without the sign.
fn rounded(dividend: i128, divisor: i128) -> i128 {
    let size = (2 * dividend.abs() + divisor) / (2 * divisor);
    dividend.signum() * size
}
