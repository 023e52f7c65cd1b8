//! "Strength", "Blocked" and the walk of Add.

use super::panel::{without, Item, Panel, Standing};

impl Panel {
    /// The strengths of all fields, by field.
    pub fn strengths(&self) -> Vec<u8> {
        let setters = self.setters();
        let mut known = vec![None; setters.len()];
        (0..self.size())
            .map(|field| self.strength(field, self.size(), &setters, &mut known))
            .collect()
    }

    /// "The strength of field v with setter c is the largest of c's level and
    /// the strengths of c's other outputs. It is followed upward through the
    /// setters, through at most as many fields as the panel has." Strengths
    /// found once are remembered in `known`.
    fn strength(&self, field: u8, depth: u8, setters: &[Item], known: &mut [Option<u8>]) -> u8 {
        if let Some(strength) = known[field as usize] {
            return strength;
        }
        assert!(depth > 0, "more fields followed than the panel has");
        let setter = setters[field as usize];
        let mut largest = self.level(setter);
        for other in without(&self.outputs(setter), field) {
            largest = largest.max(self.strength(other, depth - 1, setters, known));
        }
        known[field as usize] = Some(largest);
        largest
    }

    /// "A waiting link or stay is blocked when one of its outputs has strength
    /// greater than its level. Equal is not blocked."
    pub fn is_blocked(&self, item: Item) -> bool {
        self.is_blocked_at(item, &self.strengths())
    }

    /// "All blocked links and stays".
    pub fn blocked(&self) -> Vec<Item> {
        let strengths = self.strengths();
        let mut items = self.in_force();
        items.retain(|&item| self.is_blocked_at(item, &strengths));
        items
    }

    fn is_blocked_at(&self, item: Item, strengths: &[u8]) -> bool {
        let outputs = self.outputs(item);
        self.standing(item) == Standing::Waiting
            && outputs
                .iter()
                .any(|&field| strengths[field as usize] > self.level(item))
    }

    /// "Take its output of greatest strength; among equals, the lowest-numbered
    /// field of a set. Call it v. Walk from v: The walk stops at the first
    /// setter whose level equals the strength of v; otherwise it goes on to the
    /// lowest-numbered other output of that setter with this same strength."
    /// The answer is the fields of the walk, v first.
    pub fn walk(&self, item: Item) -> Vec<u8> {
        let strengths = self.strengths();
        let strength_of = |field: &u8| strengths[*field as usize];
        let outputs = self.outputs(item);
        let greatest = outputs.iter().map(strength_of).max();
        let greatest = greatest.expect("an output");
        let same = |fields: Vec<u8>| fields.into_iter().find(|f| strength_of(f) == greatest);

        let mut field = same(outputs).expect("the greatest is one of them");
        let mut walk = vec![field];
        loop {
            let setter = self.setter(field);
            if self.level(setter) == greatest {
                return walk;
            }
            let others = without(&self.outputs(setter), field);
            field = same(others).expect("the strength comes from an output");
            walk.push(field);
        }
    }
}
