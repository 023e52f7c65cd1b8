//! What is redrawn.

use super::panel::Panel;
use crate::fields::lowest;

impl Panel {
    /// The fields that are redrawn: "fields whose setter changed, and all fields
    /// downstream of these in the state after the command". Each field found is
    /// followed once to those that read it.
    pub(super) fn redrawn(&self, changed: u64) -> u64 {
        let mut found = changed;
        let mut left = changed;
        while left != 0 {
            let more = self.readers[lowest(left)] & !found;
            left = left & (left - 1) | more;
            found |= more;
        }
        found
    }
}
