//! The plain solver under the names of the proved one.

use crate::sides::Tally;
use harness::plain::{self, Run, TEXT_LIMIT};

/// See `sides`.
///
/// # Safety
///
/// Each pair is the pointer and the length of a live slice, `tally` points to a
/// live tally, and nothing else uses `out` or `tally` meanwhile.
#[no_mangle]
pub unsafe extern "C" fn panel_run_text(
    text: *const u8,
    text_len: usize,
    out: *mut u8,
    out_len: usize,
    tally: *mut Tally,
) -> usize {
    let text = unsafe { std::slice::from_raw_parts(text, text_len) };
    let out = unsafe { std::slice::from_raw_parts_mut(out, out_len) };
    let tally = unsafe { &mut *tally };
    // "TextTooLong is checked before any line and changes nothing."
    if text.len() > TEXT_LIMIT {
        return 0;
    }
    let mut run = Run {
        tally: plain::Tally {
            lines: tally.lines,
            accepted: tally.accepted,
            refused: tally.refused,
            last: tally.last,
        },
        ..Run::default()
    };
    let output = plain::run_text_with(&mut run, text);
    let length = written(&output, out);
    *tally = Tally {
        lines: run.tally.lines,
        accepted: run.tally.accepted,
        refused: run.tally.refused,
        last: run.tally.last,
    };
    length
}

/// Writes as many first bytes of an output as fit, and answers its length.
fn written(output: &[u8], out: &mut [u8]) -> usize {
    let fits = output.len().min(out.len());
    out[..fits].copy_from_slice(&output[..fits]);
    output.len()
}

/// See `sides`.
///
/// # Safety
///
/// The pair is the pointer and the length of a live slice, `values` points to 64
/// live values, and nothing else uses them meanwhile.
#[no_mangle]
pub unsafe extern "C" fn panel_values(
    text: *const u8,
    text_len: usize,
    values: *mut [i32; 64],
) -> usize {
    let text = unsafe { std::slice::from_raw_parts(text, text_len) };
    let values = unsafe { &mut *values };
    if text.len() > TEXT_LIMIT {
        return 0;
    }
    let after = plain::values_after(text);
    values.fill(0);
    values[..after.len()].copy_from_slice(&after);
    after.len()
}

/// See `tests/scans.rs`.
///
/// # Safety
///
/// Each pair is the pointer and the length of a live slice, and nothing else uses
/// `counts` meanwhile.
#[no_mangle]
pub unsafe extern "C" fn panel_scans(
    text: *const u8,
    text_len: usize,
    counts: *mut u8,
    counts_len: usize,
) -> usize {
    let text = unsafe { std::slice::from_raw_parts(text, text_len) };
    let counts = unsafe { std::slice::from_raw_parts_mut(counts, counts_len) };
    written(&plain::scans_after(text), counts)
}

/// See `sides`.
///
/// # Safety
///
/// Each pair is the pointer and the length of a live slice, and nothing else uses
/// `out` meanwhile.
#[no_mangle]
pub unsafe extern "C" fn panel_saved(
    text: *const u8,
    text_len: usize,
    out: *mut u8,
    out_len: usize,
) -> usize {
    let text = unsafe { std::slice::from_raw_parts(text, text_len) };
    let out = unsafe { std::slice::from_raw_parts_mut(out, out_len) };
    let output = plain::save_text(text);
    // a refusal, which the program writes as a line, is not written here
    match output.starts_with(b"FF") {
        true => 0,
        false => written(&output, out),
    }
}

/// See `sides`.
///
/// # Safety
///
/// Each pair is the pointer and the length of a live slice, and nothing else uses
/// `out` meanwhile.
#[no_mangle]
pub unsafe extern "C" fn panel_resumed(
    saved: *const u8,
    saved_len: usize,
    text: *const u8,
    text_len: usize,
    out: *mut u8,
    out_len: usize,
) -> usize {
    let saved = unsafe { std::slice::from_raw_parts(saved, saved_len) };
    let text = unsafe { std::slice::from_raw_parts(text, text_len) };
    let out = unsafe { std::slice::from_raw_parts_mut(out, out_len) };
    written(&plain::resume_text(saved, text), out)
}
