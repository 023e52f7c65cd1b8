//! The plan.

use super::panel::Panel;
use super::strength::Strengths;
use crate::fields::{below, each, highest, lowest, only, without};
use crate::text::{Refusal, LONGEST_REPLY};

impl Panel {
    /// Writes the reply to a plan; the answer is its length.
    pub fn plan(&self, reply: &mut [u8; LONGEST_REPLY]) -> Result<usize, Refusal> {
        self.must_be_open()?;
        let strengths = Strengths::all(self);
        reply[0] = 0;
        reply[1] = self.size as u8;
        let mut rows = reply[2..].chunks_exact_mut(3);
        self.list(|field| {
            if let Some(row) = rows.next() {
                row.copy_from_slice(&[field as u8, self.setter[field], strengths.known(field)]);
            }
        });
        Ok(2 + 3 * self.size)
    }

    /// "List all fields once: next comes always the lowest-numbered unlisted
    /// field whose setter's read fields are all listed." A field that is not
    /// ready watches one of its unlisted read fields and is looked at again
    /// when that one is listed. It watches the highest, which as a rule is
    /// listed last.
    fn list(&self, mut entry: impl FnMut(usize)) {
        let mut unlisted = below(self.size);
        let mut watchers = [0; 64];
        let mut ready = 0;
        let mut look_at = unlisted;
        loop {
            for field in each(look_at) {
                match self.reads[field] & unlisted {
                    0 => ready |= only(field),
                    missing => watchers[highest(missing)] |= only(field),
                }
            }
            if ready == 0 {
                return;
            }
            let field = lowest(ready);
            ready = without(ready, field);
            unlisted = without(unlisted, field);
            look_at = watchers[field];
            entry(field);
        }
    }
}
