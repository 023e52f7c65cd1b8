//! The search for what is blocked after a removal.

use super::panel::{Panel, Setter, A_STAY, FIRST_STAY_LEVEL};
use super::strength::Strengths;
use crate::fields::{each, only};

impl Panel {
    /// Of all blocked links and stays "the one with the least level (among
    /// equals, the lowest link number)", with its output of greatest strength.
    /// All strengths must be known. Every link has a lesser level than any
    /// stay.
    pub(super) fn first_blocked(&self, strengths: &mut Strengths) -> Option<(usize, Setter)> {
        if let Some(id) = self.first_blocked_link(strengths) {
            let link = self.link(id);
            let covered = link.covered;
            let (start, _) = self.strongest(link.outputs, strengths);
            return Some((start, Setter { id, covered }));
        }
        let is_blocked = |&f: &usize| strengths.known(f) > FIRST_STAY_LEVEL + self.place[f];
        let blocked = each(self.held).filter(is_blocked);
        let first = blocked.min_by_key(|&field| self.place[field])?;
        Some((first, A_STAY))
    }

    fn first_blocked_link(&self, strengths: &Strengths) -> Option<u8> {
        let stronger = self.stronger_than_levels(strengths);
        let mut first = None;
        let mut least = u8::MAX;
        for (word, &waiting) in self.waiting.iter().enumerate() {
            for bit in each(waiting) {
                let id = (64 * word + bit) as u8;
                let link = self.link(id);
                let level = link.level as usize & 15;
                if link.level < least && link.outputs & stronger[level] != 0 {
                    first = Some(id);
                    least = link.level;
                }
            }
        }
        first
    }

    /// By link level, the fields of greater strength: one test tells whether a
    /// waiting link is blocked.
    fn stronger_than_levels(&self, strengths: &Strengths) -> [u64; 16] {
        let mut of_strength = [0; 17];
        for (field, &strength) in strengths.table()[..self.size].iter().enumerate() {
            of_strength[strength.min(16) as usize] |= only(field);
        }
        let mut stronger = [0; 16];
        let mut so_far = 0;
        for level in (0..16).rev() {
            so_far |= of_strength[level + 1];
            stronger[level] = so_far;
        }
        stronger
    }
}
