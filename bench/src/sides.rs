//! The solvers behind functions of one form. Each writes the output of a text to
//! the front of the buffer and answers its length.
//!
//! None is inlined and all keep their names, so that instructions can be counted
//! between entry and exit (`instructions`).

use crate::text::run_text;
use crate::{ordinary, tuned};

/// A solver and its name.
pub struct Side {
    pub name: &'static str,
    pub run: fn(&[u8], &mut [u8]) -> usize,
}

/// The ordinary solver first, the proved one last.
pub const SIDES: [Side; 3] = [
    Side {
        name: "ordinary",
        run: side_ordinary,
    },
    Side {
        name: "tuned",
        run: side_tuned,
    },
    Side {
        name: "proved",
        run: side_proved,
    },
];

/// The ordinary optimised solver.
#[no_mangle]
#[inline(never)]
pub fn side_ordinary(text: &[u8], out: &mut [u8]) -> usize {
    run_text::<ordinary::Panel>(text, out)
}

/// The tuned solver.
#[no_mangle]
#[inline(never)]
pub fn side_tuned(text: &[u8], out: &mut [u8]) -> usize {
    run_text::<tuned::Panel>(text, out)
}

/// The proved solver, with a zero tally.
#[no_mangle]
#[inline(never)]
pub fn side_proved(text: &[u8], out: &mut [u8]) -> usize {
    let answer = run_proved(text, out, &mut Tally::default());
    assert!(
        answer <= out.len(),
        "panel_run_text answers {answer} for a buffer of {}",
        out.len()
    );
    answer
}

/// The record that the caller of the proved solver lends: "lines, accepted,
/// refused, last refusal number (00 if none)".
#[repr(C)]
#[derive(Clone, Copy, Debug, Default, PartialEq, Eq)]
pub struct Tally {
    pub lines: u32,
    pub accepted: u32,
    pub refused: u32,
    pub last: u8,
}

/// Runs the proved solver on a text, from an unopened panel and the tally that is
/// lent. The answer is the length of the whole output, of which `out` gets as many
/// first bytes as fit; 0 for a text that is too long.
#[inline]
pub fn run_proved(text: &[u8], out: &mut [u8], tally: &mut Tally) -> usize {
    // SAFETY: each pair is the pointer and the length of a live slice, `tally` is
    // live, and `out` and `tally` are borrowed by this function alone; the function
    // called asks no more.
    unsafe {
        panel_run_text(
            text.as_ptr(),
            text.len(),
            out.as_mut_ptr(),
            out.len(),
            tally,
        )
    }
}

/// Runs the proved solver on a text, from an unopened panel, and writes the values
/// of the fields after it: zeros past the panel's size, and all zeros while it is
/// unopened. The answer is the number of fields, 0 while it is unopened. For a text
/// that is too long it is 0, and the values are as they were.
pub fn values_proved(text: &[u8], values: &mut [i32; 64]) -> usize {
    // SAFETY: the pair is the pointer and the length of a live slice, `values` is
    // live and borrowed by this function alone; the function called asks no more.
    unsafe { panel_values(text.as_ptr(), text.len(), values) }
}

/// Runs the proved solver on a text, from an unopened panel, and writes the saved panel
/// after it. The answer is its length, of which `out` gets as many first bytes as fit.
/// Where no panel is open, or the text is too long, it is 0, and `out` is as it was.
pub fn saved_proved(text: &[u8], out: &mut [u8]) -> usize {
    // SAFETY: each pair is the pointer and the length of a live slice, and `out` is
    // borrowed by this function alone; the function called asks no more.
    unsafe { panel_saved(text.as_ptr(), text.len(), out.as_mut_ptr(), out.len()) }
}

/// Reads a saved panel with the proved solver, and writes the reply and, where it is
/// taken in, the output of a text from there. The answer is the length of what is
/// written, of which `out` gets as many first bytes as fit.
pub fn resumed_proved(saved: &[u8], text: &[u8], out: &mut [u8]) -> usize {
    // SAFETY: each pair is the pointer and the length of a live slice, and `out` is
    // borrowed by this function alone; the function called asks no more.
    unsafe {
        panel_resumed(
            saved.as_ptr(),
            saved.len(),
            text.as_ptr(),
            text.len(),
            out.as_mut_ptr(),
            out.len(),
        )
    }
}

// In Rattle: `#[no_mangle] pub extern "C" fn panel_run_text(text: &[u8], out:
// &mut [u8], tally: &mut Tally) -> usize`, `panel_values(text: &[u8], values:
// &mut [i32; 64]) -> usize`, `panel_saved(text: &[u8], out: &mut [u8]) -> usize` and
// `panel_resumed(saved: &[u8], text: &[u8], out: &mut [u8]) -> usize`
// (crates/panel_c). A slice is passed as its pointer and then its length.
extern "C" {
    fn panel_run_text(
        text: *const u8,
        text_len: usize,
        out: *mut u8,
        out_len: usize,
        tally: *mut Tally,
    ) -> usize;

    fn panel_values(text: *const u8, text_len: usize, values: *mut [i32; 64]) -> usize;

    fn panel_saved(text: *const u8, text_len: usize, out: *mut u8, out_len: usize) -> usize;

    fn panel_resumed(
        saved: *const u8,
        saved_len: usize,
        text: *const u8,
        text_len: usize,
        out: *mut u8,
        out_len: usize,
    ) -> usize;
}
