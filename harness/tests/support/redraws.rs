//! The redraw count (document 02, request 6) apart from the solver's own record: from
//! the plans before and after a line and from the links of the book.

use super::book::Book;
use super::held::{of_field, reads, Held};

/// By field, whether it is among the "fields whose setter changed, and all fields
/// downstream of these in the state after the command", which left this book.
pub fn redrawn(book: &Book, before: &[Held], after: &[Held]) -> Vec<bool> {
    let ways = ways(book, after);
    let fields = 0..before.len();
    let changed = |&f: &usize| of_field(before, f as u8).setter != of_field(after, f as u8).setter;
    let changed: Vec<usize> = fields.clone().filter(changed).collect();
    let is_redrawn = |field| changed.iter().any(|&f| f == field || ways[f][field]);
    fields.map(is_redrawn).collect()
}

/// By two fields, whether the second is downstream of the first: its setter reads it,
/// or a way leads there through a third one, each of which is tried in turn.
fn ways(book: &Book, held: &[Held]) -> Vec<Vec<bool>> {
    let fields = held.len();
    let mut ways = vec![vec![false; fields]; fields];
    for entry in held {
        for read in reads(book, entry) {
            ways[read as usize][entry.field as usize] = true;
        }
    }
    for through in 0..fields {
        let behind = ways[through].clone();
        for ways in ways.iter_mut().filter(|ways| ways[through]) {
            for (way, behind) in ways.iter_mut().zip(&behind) {
                *way |= behind;
            }
        }
    }
    ways
}
