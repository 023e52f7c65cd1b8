//! Strengths, each worked out at most once per command.

use super::panel::{Panel, FIRST_STAY_LEVEL};
use crate::fields::{each, has, lowest, only, without};

/// The strengths known so far.
pub struct Strengths {
    is_known: u64,
    strength: [u8; 64],
}

impl Strengths {
    /// Of the fields that stays set: the stays' levels.
    pub fn new(panel: &Panel) -> Strengths {
        Strengths {
            is_known: !panel.held,
            strength: panel.place.map(|place| FIRST_STAY_LEVEL + place),
        }
    }

    /// Of all fields.
    pub fn all(panel: &Panel) -> Strengths {
        let mut strengths = Strengths::new(panel);
        for field in each(panel.held) {
            panel.strength(field, &mut strengths);
        }
        strengths
    }

    /// The strength of a field for which it is known.
    #[inline]
    pub fn known(&self, field: usize) -> u8 {
        self.strength[field]
    }

    /// By field, all strengths that are known.
    pub fn table(&self) -> &[u8; 64] {
        &self.strength
    }
}

impl Panel {
    /// The strength of a field.
    #[inline]
    pub(super) fn strength(&self, field: usize, strengths: &mut Strengths) -> u8 {
        match has(strengths.is_known, field) {
            true => strengths.known(field & 63),
            false => self.work_out(field & 63, strengths),
        }
    }

    /// "The strength of field v with setter c is the largest of c's level and
    /// the strengths of c's other outputs." Without a loop the recursion meets
    /// no field twice on its way, so it is at most 64 deep.
    fn work_out(&self, field: usize, strengths: &mut Strengths) -> u8 {
        let link = self.link(self.setter[field]);
        let mut largest = link.level;
        for other in each(without(link.outputs, field)) {
            largest = largest.max(self.strength(other, strengths));
        }
        strengths.is_known |= only(field);
        strengths.strength[field] = largest;
        largest
    }

    /// "Its output of greatest strength; among equals, the lowest-numbered
    /// field", with the strength. The set is not empty.
    pub(super) fn strongest(&self, set: u64, strengths: &mut Strengths) -> (usize, u8) {
        let mut best = (lowest(set), 0);
        for field in each(set) {
            let strength = self.strength(field, strengths);
            if strength > best.1 {
                best = (field, strength);
            }
        }
        best
    }
}
