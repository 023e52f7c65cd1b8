//! Saved panels (document 02, request 7), worked out by hand: texts of lines with the
//! panel that is saved after them, saved texts with the reply to their reading, and
//! lines answered from a saved panel.

pub mod panels;
pub mod readings;
pub mod resumed;

use crate::plain::{hex, Run};

/// Lines, each with its LF.
pub fn text_of<S: AsRef<str>>(lines: &[S]) -> Vec<u8> {
    let text: String = lines
        .iter()
        .map(|line| line.as_ref().to_string() + "\n")
        .collect();
    text.into_bytes()
}

/// Lines by which a panel is seen whole but for its formulas: its plan, the removal of
/// every link, a plan of the stays alone, and then for every field the value that it
/// has, which moves nothing.
pub fn look(run: &Run) -> Vec<u8> {
    let mut frames = vec![vec![5]];
    frames.extend(run.panel.links().keys().map(|&id| vec![3, id]));
    frames.push(vec![5]);
    for (field, value) in run.values.iter().enumerate() {
        frames.push([&[7, field as u8], &value.to_be_bytes()[..]].concat());
    }
    let lines: Vec<String> = frames.iter().map(|frame| hex(frame)).collect();
    text_of(&lines)
}
