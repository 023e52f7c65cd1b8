//! Compares the proved solver with the ordinary one: first their replies, byte
//! by byte on every text, then their times. Prints Markdown tables.

#[cfg(feature = "copies")]
mod copies;
#[cfg(not(feature = "copies"))]
mod copies {
    /// Counts nothing.
    pub fn counted(work: impl FnOnce()) {
        work();
    }
}
mod measure;
mod options;
mod plot;
mod report;

use measure::{compare, least_times, Growth, Mixed};
use options::{Mode, Options};
use panel_bench::sides::Side;
use panel_bench::text::LONGEST_OUTPUT;
use panel_bench::texts;

fn main() {
    let options = match Options::read(std::env::args().skip(1)) {
        Ok(options) => options,
        Err(message) => {
            eprintln!("panel-bench: {message}\n{}", options::USAGE);
            std::process::exit(2);
        }
    };
    match options.mode {
        Mode::Once(side, mix) => once(&side, mix),
        Mode::Tables(plot) => tables(options.rounds, plot),
    }
}

/// Runs one solver once over the texts of a mix, for a count of instructions or
/// of copies.
fn once(side: &Side, mix: usize) {
    let texts = texts::of_mix(mix);
    let mut out = vec![0; LONGEST_OUTPUT];
    copies::counted(|| {
        for text in &texts {
            (side.run)(text, &mut out);
        }
    });
    println!("commands {}", texts::count(&texts));
}

fn tables(rounds: usize, plot: Option<String>) {
    let mixes: Vec<_> = (0..texts::MIXES.len()).map(texts::of_mix).collect();
    let growth: Vec<_> = growth_points()
        .map(|(fields, links)| (fields, links, texts::of_growth(fields, links)))
        .collect();
    // All replies are compared before anything is measured.
    let replies: Vec<_> = mixes.iter().map(|texts| compare(texts)).collect();
    for (_, _, texts) in &growth {
        compare(texts);
    }

    let mixed: Vec<_> = (mixes.iter().zip(replies).enumerate())
        .map(|(mix, (texts, replies))| Mixed {
            mix,
            replies,
            kinds: texts::kinds(texts),
            times: least_times(texts, rounds),
        })
        .collect();
    print!("{}", report::mixes(&mixed, rounds));
    let growth: Vec<_> = (growth.iter())
        .map(|(fields, links, texts)| Growth {
            fields: *fields,
            links: *links,
            times: least_times(texts, rounds),
        })
        .collect();
    print!("{}", report::growth(&growth));
    if let Some(file) = plot {
        std::fs::write(&file, plot::svg(&growth)).unwrap_or_else(|error| {
            eprintln!("panel-bench: {file}: {error}");
            std::process::exit(1);
        });
    }
}

/// Each number of fields with each number of links.
fn growth_points() -> impl Iterator<Item = (usize, usize)> {
    let links = |fields| texts::GROWTH_LINKS.map(|links| (fields, links));
    texts::GROWTH_FIELDS.into_iter().flat_map(links)
}
