//! Sets of fields as one `u64`, bit f for field f.

/// The set of one field.
#[inline]
pub fn only(field: usize) -> u64 {
    1 << (field & 63)
}

/// The set without one field.
#[inline]
pub fn without(set: u64, field: usize) -> u64 {
    set & !only(field)
}

/// Whether the field is in the set.
#[inline]
pub fn has(set: u64, field: usize) -> bool {
    set >> (field & 63) & 1 == 1
}

/// The fields 0 to `size` - 1; `size` is 1 to 64.
#[inline]
pub fn below(size: usize) -> u64 {
    u64::MAX >> (64 - size)
}

/// The lowest-numbered field of a set that is not empty. The mask changes
/// nothing there; with it the compiler knows that the field is below 64 and
/// drops the bounds checks of arrays of 64.
#[inline]
pub fn lowest(set: u64) -> usize {
    set.trailing_zeros() as usize & 63
}

/// The highest-numbered field of a set that is not empty.
#[inline]
pub fn highest(set: u64) -> usize {
    63 - (set.leading_zeros() as usize & 63)
}

/// The fields of a set, rising.
#[inline]
pub fn each(set: u64) -> Each {
    Each(set)
}

/// What is left to visit of a set.
pub struct Each(u64);

impl Iterator for Each {
    type Item = usize;

    #[inline]
    fn next(&mut self) -> Option<usize> {
        if self.0 == 0 {
            return None;
        }
        let field = lowest(self.0);
        self.0 &= self.0 - 1;
        Some(field)
    }
}
