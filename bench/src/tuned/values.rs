//! Values and formulas.

use super::panel::Panel;
use super::steps::count;
use crate::fields::{each, has, lowest, only, without};
use crate::formula::Formula;
use crate::text::Refusal;

/// The values while the plan is run, and which of them changed.
struct Running {
    values: [i32; 64],
    changed: u64,
}

impl Running {
    fn enter(&mut self, field: usize, value: i32) {
        self.changed |= u64::from(self.values[field] != value) << field;
        self.values[field] = value;
    }
}

impl Panel {
    /// "Touches f, stores the value and runs the whole plan once"; "every refusal
    /// undoes the touch". Where a link still sets the field nothing was turned, and
    /// otherwise the touch turned no link that waited or waits. The count is of what
    /// the touch redraws and "also every field whose value changed".
    pub fn store(&mut self, field: u8, value: i32) -> Result<u8, Refusal> {
        let (places, setters) = (self.place, self.setter);
        let moved = self.touch_fields(field)?;
        let field = field as usize & 63;
        if has(self.held, field) {
            self.place = places;
            return Err(Refusal::FieldDriven);
        }
        if let Some(run) = self.run_plan(field, value) {
            self.values = run.values;
            return Ok(count(self.redrawn(moved) | run.changed));
        }
        self.place = places;
        self.put_back(moved, &setters, self.waiting);
        Err(Refusal::OutOfRange)
    }

    /// The values after this one is stored and the plan is run; none where a
    /// result is outside the limits. Only fields whose link has a formula are
    /// worked out, each after those of them that it reads: any such order gives
    /// the values that the plan's does.
    fn run_plan(&self, stored: usize, value: i32) -> Option<Running> {
        let mut run = Running {
            values: self.values,
            changed: 0,
        };
        run.enter(stored, value);
        let mut left = 0;
        for field in each(self.held) {
            if self.formula(self.setter[field]) != Formula::None {
                left |= only(field);
            }
        }
        while left != 0 {
            left = self.run_field(lowest(left), left, &mut run)?;
        }
        Some(run)
    }

    /// Works out a field after all it reads that is left. The answer is what is
    /// left then.
    fn run_field(&self, field: usize, mut left: u64, run: &mut Running) -> Option<u64> {
        let reads = self.reads[field];
        while reads & left != 0 {
            left = self.run_field(lowest(reads & left), left, run)?;
        }
        let formula = self.formula(self.setter[field]);
        let result = formula.result(reads | only(field), field, &run.values)?;
        run.enter(field, result);
        Some(without(left, field))
    }

    /// "A new formula replaces the old"; the reply is 0.
    pub fn give_formula(&mut self, id: u8, formula: Formula) -> Result<u8, Refusal> {
        formula.check(id, self.size, |id| self.link(id as u8).covered)?;
        *self.formula_mut(id) = formula;
        Ok(0)
    }
}
