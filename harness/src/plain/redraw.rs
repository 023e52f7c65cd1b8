//! The redraw count (document 02, request 6): "The count becomes: fields whose
//! setter changed, and all fields downstream of these in the state after the
//! command; for kind 07 also every field whose value changed."

use super::panel::Panel;

impl Panel {
    /// The fields that are redrawn after a command which left this panel of the
    /// one before, whatever their values: "fields whose setter changed, and all
    /// fields downstream of these in the state after the command". A link of the
    /// same number is the same setter, whatever it reads.
    pub fn redrawn(&self, before: &Panel) -> Vec<u8> {
        let (old, new) = (before.setters(), self.setters());
        let changed = |&field: &u8| old[field as usize] != new[field as usize];
        let changed: Vec<u8> = (0..self.size()).filter(changed).collect();
        self.with_downstream(&changed)
    }

    /// These fields and all downstream of them: a field is downstream if its
    /// setter reads one of them, "directly or through others". As long as a field
    /// that is not among them has a setter that reads one of them, it joins them.
    pub fn with_downstream(&self, fields: &[u8]) -> Vec<u8> {
        let setters = self.setters().into_iter().enumerate();
        let reads: Vec<Vec<u8>> = setters.map(|(f, c)| self.reads(c, f as u8)).collect();
        let mut found = fields.to_vec();
        loop {
            let mut others = (0..self.size()).filter(|field| !found.contains(field));
            let reads_one = |&f: &u8| reads[f as usize].iter().any(|read| found.contains(read));
            match others.find(reads_one) {
                Some(reader) => found.push(reader),
                None => break,
            }
        }
        found.sort();
        found
    }
}
