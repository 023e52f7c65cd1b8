//! The words of the command line.

use panel_bench::sides::{Side, SIDES};
use panel_bench::texts::MIXES;

pub const USAGE: &str = "\
usage: panel-bench [--rounds N] [--plot FILE]
       panel-bench --only ordinary|tuned|proved --mix 1..8";

/// What is to be done.
pub enum Mode {
    /// One solver over one mix, once. Mixes are counted from 0 here.
    Once(Side, usize),
    /// The tables, and the plot into a file.
    Tables(Option<String>),
}

pub struct Options {
    pub rounds: usize,
    pub mode: Mode,
}

impl Options {
    pub fn read(mut words: impl Iterator<Item = String>) -> Result<Options, String> {
        let (mut rounds, mut plot, mut only, mut mix) = (25, None, None, None);
        while let Some(word) = words.next() {
            let value = words.next().ok_or(format!("{word} has no value"))?;
            match word.as_str() {
                "--rounds" => rounds = number(&value, 1..=1_000_000)?,
                "--plot" => plot = Some(value),
                "--only" => only = Some(side(&value)?),
                "--mix" => mix = Some(number(&value, 1..=MIXES.len())? - 1),
                _ => return Err(format!("{word} is unknown")),
            }
        }
        let mode = match (only, mix) {
            (Some(side), Some(mix)) => Mode::Once(side, mix),
            (None, None) => Mode::Tables(plot),
            _ => return Err("--only and --mix belong together".to_string()),
        };
        Ok(Options { rounds, mode })
    }
}

fn number(value: &str, range: std::ops::RangeInclusive<usize>) -> Result<usize, String> {
    let number = value.parse().ok().filter(|number| range.contains(number));
    number.ok_or(format!("{value} is no number from {range:?}"))
}

fn side(name: &str) -> Result<Side, String> {
    let side = SIDES.into_iter().find(|side| side.name == name);
    side.ok_or(format!("{name} is no solver"))
}
