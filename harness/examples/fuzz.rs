//! fuzz SECONDS [FIRST_SEED]: the run program and the plain solver on texts whose
//! mix is drawn too, one seed after the other, for so long. It ends at the first
//! difference, with the shortest text found.

use harness::compare::compared;
use harness::generate::{long_text, text, Mix, Rng, MIXES};
use harness::plain::lines;
use harness::program::PANEL;
use std::time::{Duration, Instant};

const LEVELS: [&[u8]; 5] = [
    &[0],
    &[0, 1],
    &[5, 5, 5, 6],
    &[0, 3, 7, 11, 15],
    &[0, 1, 2, 3, 4, 5, 6, 7, 8, 9, 10, 11, 12, 13, 14, 15],
];

/// Any mix, extremes among them.
fn drawn_mix(rng: &mut Rng) -> Mix {
    let fields = rng.between(1, 64);
    let covered = rng.between(1, 8);
    Mix {
        fields: (rng.between(1, fields), fields),
        ids: rng.between(1, 128),
        levels: LEVELS[rng.below(LEVELS.len())],
        covered: (rng.between(1, covered), covered),
        output_percent: rng.between(0, 100),
        weights: std::array::from_fn(|_| rng.between(1, 40)),
        damaged_percent: rng.below(30),
        reread_percent: rng.below(100),
        few_values_percent: rng.below(60),
        ..MIXES[0]
    }
}

fn main() {
    let mut words = std::env::args().skip(1).map(|word| word.parse::<u64>());
    let (Some(Ok(seconds)), Some(Ok(first_seed))) = (words.next(), words.next().or(Some(Ok(0))))
    else {
        eprintln!("usage: fuzz SECONDS [FIRST_SEED]");
        std::process::exit(2);
    };
    let end = Instant::now() + Duration::from_secs(seconds);
    let (mut texts, mut commands) = (0, 0);
    for seed in first_seed.. {
        if Instant::now() >= end {
            break;
        }
        let mix = drawn_mix(&mut Rng::new(seed));
        let input = match seed % 8 {
            0 => text(seed),
            _ => long_text(seed, &mix),
        };
        if let Err(difference) = compared(&input, |text| PANEL.outcome(text)) {
            println!("seed {seed}: {difference}");
            std::process::exit(1);
        }
        texts += 1;
        commands += lines(&input).len();
    }
    println!("{texts} texts, {commands} lines, from seed {first_seed}: no difference");
}
