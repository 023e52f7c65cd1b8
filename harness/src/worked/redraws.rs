//! The redraw count (document 02, request 6): "fields whose setter changed, and all
//! fields downstream of these in the state after the command; for kind 07 also every
//! field whose value changed". Plans show who holds which field.

pub mod setters;
pub mod values;

use super::values::Valued;
use super::Worked;

/// Every text with values.
pub fn valued() -> Vec<Valued> {
    values::all()
}

/// Every text of these files as a whole output.
pub fn all() -> Vec<Worked> {
    let valued = valued();
    let looked_at = valued.iter().flat_map(Valued::looked_at);
    looked_at.chain(setters::all()).collect()
}
