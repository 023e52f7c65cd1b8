//! Texts that go up to the limit, so that few of them hold many lines.

use super::frames::frames_of_length;
use super::{damage, damaged, joined, Mix, Rng};
use crate::plain::TEXT_LIMIT;

/// How much of a text comes before the opening, in texts that open late.
const EARLY: usize = 3_000;

/// The text of a seed in one mix, cut at the limit. About every third text opens
/// late, and about every second one has damaged lines and damaged bytes. The
/// mix's number of frames is not used.
pub fn long_text(seed: u64, mix: &Mix) -> Vec<u8> {
    let mut rng = Rng::new(seed);
    let is_damaged = rng.percent(50);
    let damaged_percent = if is_damaged { mix.damaged_percent } else { 0 };
    let mut lines = Vec::new();
    if rng.percent(33) {
        let early = early_frames(&mut rng, mix);
        lines = damaged(&mut rng, early, damaged_percent);
    }
    // The opening is not damaged: without it every line would be refused.
    let mut frames = frames_of_length(&mut rng, mix, TEXT_LIMIT);
    let rest = frames.split_off(1);
    lines.extend(damaged(&mut rng, frames, 0));
    lines.extend(damaged(&mut rng, rest, damaged_percent));
    let mut text = joined(&lines);
    text.truncate(TEXT_LIMIT);
    if is_damaged {
        damage::text(&mut rng, &mut text, 100);
        text.truncate(TEXT_LIMIT);
    }
    text
}

/// Commands before the opening. The openings among them have a bad size, and
/// there are more of them than later.
fn early_frames(rng: &mut Rng, mix: &Mix) -> Vec<Vec<u8>> {
    let mut frames = frames_of_length(rng, mix, EARLY);
    for frame in &mut frames {
        if frame[0] == 1 || rng.percent(10) {
            *frame = vec![1, *rng.pick(&[0, 65, 66, 127, 128, 255])];
        }
    }
    frames
}
