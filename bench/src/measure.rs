//! The comparison of replies, and the measuring of times.

use panel_bench::sides::SIDES;
use panel_bench::text::LONGEST_OUTPUT;
use panel_bench::texts::{self, Kinds};
use std::hint::black_box;
use std::time::Instant;

/// The least times of the solvers over the same texts.
pub struct Times {
    commands: usize,
    seconds: [f64; 3],
}

impl Times {
    /// Nanoseconds per command, by solver.
    pub fn nanoseconds(&self) -> [f64; 3] {
        self.seconds.map(|s| s * 1e9 / self.commands as f64)
    }

    /// The proved solver's time divided by another one's.
    pub fn ratio_to(&self, side: usize) -> f64 {
        self.seconds[2] / self.seconds[side]
    }
}

/// How many replies were refusals, and how many had a moved count above 0.
#[derive(Default)]
pub struct Replies {
    pub refused: usize,
    pub moved: usize,
}

/// What was found for a mix.
pub struct Mixed {
    pub mix: usize,
    pub replies: Replies,
    pub kinds: Kinds,
    pub times: Times,
}

/// What was found for a number of fields and of links.
pub struct Growth {
    pub fields: usize,
    pub links: usize,
    pub times: Times,
}

/// Runs all solvers over the texts and panics where the outputs differ.
pub fn compare(texts: &[Vec<u8>]) -> Replies {
    let mut replies = Replies::default();
    let mut proved = vec![0; LONGEST_OUTPUT];
    let mut rust = vec![0; LONGEST_OUTPUT];
    for (number, text) in texts.iter().enumerate() {
        let proved_len = (SIDES[2].run)(text, &mut proved);
        let proved = &proved[..proved_len];
        for side in &SIDES[..2] {
            let rust_len = (side.run)(text, &mut rust);
            let rust = &rust[..rust_len];
            if rust != proved {
                let difference = first_difference(text, rust, proved);
                panic!("text {number}, {}: {difference}", side.name);
            }
        }
        count_replies(proved, &mut replies);
    }
    replies
}

fn count_replies(output: &[u8], replies: &mut Replies) {
    let mut lines: Vec<_> = output.split(|&byte| byte == b'\n').collect();
    // Behind the last LF there is nothing, and before it stands the tally.
    lines.truncate(lines.len() - 2);
    replies.refused += lines.iter().filter(|line| line.starts_with(b"FF")).count();
    let moved = (lines.iter()).filter(|line| line.len() == 4 && line.starts_with(b"00"));
    replies.moved += moved.filter(|line| **line != b"0000").count();
}

/// The first line whose replies differ, for the reader.
fn first_difference(text: &[u8], rust: &[u8], proved: &[u8]) -> String {
    let lines = |bytes: &[u8]| -> Vec<String> {
        let text = String::from_utf8_lossy(bytes);
        text.lines().map(String::from).collect()
    };
    let (text, rust, proved) = (lines(text), lines(rust), lines(proved));
    let place = (0..rust.len().max(proved.len()))
        .find(|&place| rust.get(place) != proved.get(place))
        .unwrap_or(rust.len());
    format!(
        "line {}, {:?}: that solver replies {:?}, the proved one {:?}",
        place + 1,
        text.get(place),
        rust.get(place),
        proved.get(place)
    )
}

/// Runs the solvers in turn over all the texts, so many rounds, and takes the
/// least time of each. All write to one buffer, which is not cleared between
/// rounds.
pub fn least_times(texts: &[Vec<u8>], rounds: usize) -> Times {
    let mut out = vec![0; LONGEST_OUTPUT];
    let mut seconds = [f64::INFINITY; 3];
    for _ in 0..rounds {
        for (side, least) in SIDES.iter().zip(&mut seconds) {
            let start = Instant::now();
            for text in texts {
                black_box((side.run)(black_box(text), &mut out));
            }
            *least = least.min(start.elapsed().as_secs_f64());
        }
    }
    Times {
        commands: texts::count(texts),
        seconds,
    }
}
