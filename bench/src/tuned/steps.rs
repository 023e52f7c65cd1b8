//! Opening, add, remove, change and touch. Each answers the moved count.

use super::panel::{Link, Panel, Setter, A_STAY, FIRST_STAY_LEVEL, NO_LINK, STAY};
use super::strength::Strengths;
use crate::fields::{each, has, only};
use crate::formula::Formula;
use crate::frame::{read_link, read_size};
use crate::text::Refusal;

impl Panel {
    /// The places are right already: those of an unopened panel.
    pub fn open(&mut self, size: u8) -> Result<u8, Refusal> {
        self.size = read_size(self.size, size)?;
        Ok(0)
    }

    pub fn add(&mut self, id: u8, level: u8, field_bytes: &[u8]) -> Result<u8, Refusal> {
        let link = self.new_link(id, level, field_bytes)?;
        if self.link(id).outputs != 0 {
            return Err(Refusal::LinkTaken);
        }
        let moved = self.enter_link(id, link)?;
        Ok(count(self.redrawn(moved)))
    }

    pub fn remove(&mut self, id: u8) -> Result<u8, Refusal> {
        self.must_be_open()?;
        if id > 127 {
            return Err(Refusal::BadLink);
        }
        if self.link(id).outputs == 0 {
            return Err(Refusal::NoSuchLink);
        }
        let moved = self.drop_link(id)?;
        *self.formula_mut(id) = Formula::None;
        Ok(count(self.redrawn(moved)))
    }

    /// "Removes the link and adds it anew as one, its formula kept if the covered
    /// fields are the same, else dropped"; "a refusal changes nothing".
    pub fn change(&mut self, id: u8, level: u8, field_bytes: &[u8]) -> Result<u8, Refusal> {
        let link = self.new_link(id, level, field_bytes)?;
        let old = *self.link(id);
        if old.outputs == 0 {
            return Err(Refusal::NoSuchLink);
        }
        let (setters, waiting) = (self.setter, self.waiting);
        let freed = self.drop_link(id)?;
        let taken = match self.enter_link(id, link) {
            Ok(taken) => taken,
            Err(refusal) => {
                *self.link_mut(id) = old;
                self.put_back(freed, &setters, waiting);
                return Err(refusal);
            }
        };
        if link.covered != old.covered {
            *self.formula_mut(id) = Formula::None;
        }
        let moved = each(freed | taken).filter(|&field| self.setter[field] != setters[field]);
        let moved = moved.fold(0, |set, field| set | only(field));
        Ok(count(self.redrawn(moved)))
    }

    /// The link of an add or a change, after the checks 4, 6 and 7.
    fn new_link(&self, id: u8, level: u8, field_bytes: &[u8]) -> Result<Link, Refusal> {
        self.must_be_open()?;
        let (covered, outputs) = read_link(id, level, field_bytes, self.size)?;
        Ok(Link {
            covered,
            outputs,
            level,
            holds: None,
        })
    }

    /// "The new link waits. If it is not blocked: at level 0 refuse with
    /// Conflict, else accept." If it is blocked, turn. The answer is the set of the
    /// fields moved; a refusal leaves the number not in use. This and `drop_link` are
    /// inlined for both callers: by a call an add takes 4 percent more instructions.
    #[inline(always)]
    fn enter_link(&mut self, id: u8, link: Link) -> Result<u64, Refusal> {
        let mut strengths = Strengths::new(self);
        let (start, greatest) = self.strongest(link.outputs, &mut strengths);
        if greatest > link.level {
            *self.link_mut(id) = link;
            let covered = link.covered;
            let moved = self.turn(start, &strengths, Setter { id, covered });
            if moved.is_err() {
                *self.link_mut(id) = NO_LINK;
            }
            return moved;
        }
        if link.level == 0 {
            return Err(Refusal::Conflict);
        }
        *self.link_mut(id) = link;
        self.set_waiting(id, true);
        Ok(0)
    }

    /// "If the link waits, drop it. If it sets v, drop it and let v's stay set
    /// v." Then turn for what is blocked. The answer is the set of the fields moved;
    /// a refusal leaves all as it was.
    #[inline(always)]
    fn drop_link(&mut self, id: u8) -> Result<u64, Refusal> {
        let link = std::mem::replace(self.link_mut(id), NO_LINK);
        let Some(field) = link.holds else {
            self.set_waiting(id, false);
            return Ok(0);
        };
        let field = field as usize & 63;
        let old = self.give(field, A_STAY);
        let moved = self.settle(field);
        if moved.is_err() {
            *self.link_mut(id) = link;
            self.give(field, old);
        }
        moved
    }

    /// After `freed` went to its stay: turns for the blocked link or stay of
    /// least level, "once". The fields moved are those of the path and `freed`,
    /// whose former setter is gone.
    fn settle(&mut self, freed: usize) -> Result<u64, Refusal> {
        let mut strengths = Strengths::all(self);
        let Some((start, setter)) = self.first_blocked(&mut strengths) else {
            return Ok(only(freed));
        };
        let moved = self.turn(start, &strengths, setter)?;
        Ok(moved | only(freed))
    }

    /// Gives the fields that a removal or a touch moved the setters that they had, and
    /// enters which links waited.
    pub(super) fn put_back(&mut self, fields: u64, setters: &[u8; 64], waiting: [u64; 2]) {
        for field in each(fields) {
            let id = setters[field];
            let covered = if id == STAY { 0 } else { self.link(id).covered };
            let now = self.give(field, Setter { id, covered });
            if now.id != STAY {
                self.link_mut(now.id).holds = None;
            }
        }
        self.enter_setters(fields);
        self.waiting = waiting;
    }

    pub fn touch(&mut self, field: u8) -> Result<u8, Refusal> {
        let moved = self.touch_fields(field)?;
        Ok(count(self.redrawn(moved)))
    }

    /// "f's stay moves to place 0 ... If that stay waits and is now blocked, turn
    /// as in Add. A loop refuses the touch, order included." The answer is the set
    /// of the fields moved.
    #[inline]
    pub(super) fn touch_fields(&mut self, field: u8) -> Result<u64, Refusal> {
        self.must_be_open()?;
        let field = field as usize;
        if field >= self.size {
            return Err(Refusal::NoSuchField);
        }
        let places = self.place;
        self.move_to_front(field);
        if !has(self.held, field) {
            return Ok(0);
        }
        let mut strengths = Strengths::new(self);
        if self.strength(field, &mut strengths) <= FIRST_STAY_LEVEL {
            return Ok(0);
        }
        let moved = self.turn(field, &strengths, A_STAY);
        if moved.is_err() {
            self.place = places;
        }
        moved
    }

    /// "f's stay moves to place 0; those that stood before it move down one."
    /// Without a branch, so that the compiler can use vector instructions.
    fn move_to_front(&mut self, field: usize) {
        let at = self.place[field & 63];
        for place in &mut self.place {
            *place += (*place < at) as u8;
        }
        self.place[field & 63] = 0;
    }
}

/// The size of a set of fields.
pub(super) fn count(fields: u64) -> u8 {
    fields.count_ones() as u8
}
