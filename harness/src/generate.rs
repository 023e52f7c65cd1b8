//! Random texts, headers and saved panels, the same ones for the same seed.

mod changes;
mod damage;
mod frames;
mod headers;
mod images;
mod long;
mod rng;
mod values;

pub use frames::{frames, Mix, MIXES};
pub use headers::header_file;
pub use images::{image, image_of, with_lines_changed};
pub use long::long_text;
pub use rng::Rng;

use crate::plain::{hex, TEXT_LIMIT};

/// The text of a seed. Neighbouring seeds take different mixes; among them are
/// well formed and damaged texts, empty ones, texts that end without LF, texts
/// of exactly the limit and texts over it.
pub fn text(seed: u64) -> Vec<u8> {
    let mut rng = Rng::new(seed);
    let mix = &MIXES[(seed % MIXES.len() as u64) as usize];
    let mut text = joined(&lines(&mut rng, mix));
    if rng.percent(20) {
        text.pop();
    }
    match rng.below(200) {
        0..=1 => text.clear(),
        2..=4 => pad(&mut rng, &mut text, TEXT_LIMIT),
        5..=8 => {
            let length = TEXT_LIMIT + rng.between(1, 200);
            pad(&mut rng, &mut text, length);
        }
        _ => {}
    }
    text
}

/// The lines of a text: the frames of the mix, in some texts with commands
/// before the opening, in some with damaged lines.
pub fn lines(rng: &mut Rng, mix: &Mix) -> Vec<Vec<u8>> {
    let mut frames = frames(rng, mix);
    if rng.percent(15) {
        let early = frames.len().min(1 + rng.below(4));
        frames[..early].rotate_left(1);
    }
    let damaged_percent = *rng.pick(&[0, 0, mix.damaged_percent]);
    damaged(rng, frames, damaged_percent)
}

/// Frames as lines, some of them damaged.
fn damaged(rng: &mut Rng, frames: Vec<Vec<u8>>, percent: usize) -> Vec<Vec<u8>> {
    let mut lines = Vec::new();
    for frame in frames {
        lines.push(match rng.percent(percent) {
            true => damage::line(rng, frame),
            false => hex(&frame).into_bytes(),
        });
    }
    lines
}

/// Lines as a text, each with its LF.
fn joined(lines: &[Vec<u8>]) -> Vec<u8> {
    lines
        .iter()
        .flat_map(|line| [line, &b"\n"[..]].concat())
        .collect()
}

/// Brings a text to a length, by cutting it or by one sort of filler.
fn pad(rng: &mut Rng, text: &mut Vec<u8>, length: usize) {
    let filler = *rng.pick(&["\n", "0", "05\n", "0400\n", "\r\n", "0201"]);
    while text.len() < length {
        text.extend_from_slice(filler.as_bytes());
    }
    text.truncate(length);
}
