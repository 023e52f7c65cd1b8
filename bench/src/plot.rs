//! The plot of the time per command by links, one part for each number of fields,
//! as SVG.

use crate::measure::Growth;
use panel_bench::texts::GROWTH_FIELDS;

/// Sizes in pixels.
const PART_WIDTH: f64 = 150.0;
const PART_HEIGHT: f64 = 220.0;
const GAP: f64 = 24.0;
const LEFT: f64 = 64.0;
const TOP: f64 = 76.0;
const BOTTOM: f64 = 52.0;

const MOST_LINKS: f64 = 128.0;
const PARTS: f64 = GROWTH_FIELDS.len() as f64;
const WIDTH: f64 = LEFT + PARTS * (PART_WIDTH + GAP);
const HEIGHT: f64 = TOP + PART_HEIGHT + BOTTOM;

/// A solver's line: its name, colour, dashes and the place of its name.
struct Series {
    name: &'static str,
    colour: &'static str,
    dashes: &'static str,
    name_at: f64,
}

const SERIES: [Series; 3] = [
    Series {
        name: "ordinary Rust",
        colour: "#0b62a4",
        dashes: "6 3",
        name_at: LEFT,
    },
    Series {
        name: "tuned Rust",
        colour: "#4d7c0f",
        dashes: "2 3",
        name_at: LEFT + 150.0,
    },
    Series {
        name: "proved",
        colour: "#c2410c",
        dashes: "none",
        name_at: LEFT + 290.0,
    },
];

/// The whole plot.
pub fn svg(points: &[Growth]) -> String {
    let times = points.iter().flat_map(|point| point.times.nanoseconds());
    let step = tick_step(times.fold(0.0, f64::max));
    let parts: String = (GROWTH_FIELDS.iter().enumerate())
        .map(|(place, &fields)| part(points, place, fields, step))
        .collect();
    format!(
        "<svg xmlns=\"http://www.w3.org/2000/svg\" viewBox=\"0 0 {WIDTH} {HEIGHT}\" \
         width=\"{WIDTH}\" height=\"{HEIGHT}\" font-family=\"sans-serif\" font-size=\"12\">\n\
         <rect width=\"{WIDTH}\" height=\"{HEIGHT}\" fill=\"white\"/>\n{}{}{}{parts}</svg>\n",
        text(
            LEFT,
            20.0,
            "start",
            "Time per command in ns by links, mix 40/25/25/10"
        ),
        legend(),
        text(
            LEFT + (WIDTH - LEFT - GAP) / 2.0,
            HEIGHT - 10.0,
            "middle",
            "links"
        ),
    )
}

/// The distance of the ticks: 1, 2 or 5 times a power of ten, so that at most
/// five reach the greatest value.
fn tick_step(greatest: f64) -> f64 {
    let powers = (0..12).map(|power| 10f64.powi(power));
    let mut steps = powers.flat_map(|power| [power, 2.0 * power, 5.0 * power]);
    steps.find(|step| 5.0 * step >= greatest).unwrap_or(1e12)
}

fn legend() -> String {
    let entry = |series: &Series| {
        let end = series.name_at + 28.0;
        let name = text(end + 6.0, 40.0, "start", series.name);
        path(&[(series.name_at, 36.0), (end, 36.0)], series) + &name
    };
    SERIES.iter().map(entry).collect()
}

/// One number of fields: the axes and a line for each solver.
fn part(points: &[Growth], place: usize, fields: usize, step: f64) -> String {
    let left = LEFT + place as f64 * (PART_WIDTH + GAP);
    let x = |links: f64| left + links / MOST_LINKS * PART_WIDTH;
    let y = |time: f64| TOP + PART_HEIGHT - time / (5.0 * step) * PART_HEIGHT;
    let title = format!("{fields} fields");
    let mut part = text(left + PART_WIDTH / 2.0, TOP - 12.0, "middle", &title);
    for tick in 0..=5 {
        let time = f64::from(tick) * step;
        part += &grid_line((left, y(time)), (left + PART_WIDTH, y(time)));
        if place == 0 {
            part += &text(left - 8.0, y(time) + 4.0, "end", &time.to_string());
        }
    }
    for links in [0, 32, 64, 96, 128] {
        let at = x(f64::from(links));
        part += &grid_line((at, y(0.0)), (at, y(0.0) + 5.0));
        part += &text(at, y(0.0) + 18.0, "middle", &links.to_string());
    }
    for (side, series) in SERIES.iter().enumerate() {
        let of_part = points.iter().filter(|point| point.fields == fields);
        let line: Vec<_> = of_part
            .map(|point| (x(point.links as f64), y(point.times.nanoseconds()[side])))
            .collect();
        part += &path(&line, series);
        part.extend(line.iter().map(|&(x, y)| dot(x, y, series)));
    }
    part
}

fn text(x: f64, y: f64, anchor: &str, words: &str) -> String {
    format!("<text x=\"{x:.1}\" y=\"{y:.1}\" text-anchor=\"{anchor}\">{words}</text>\n")
}

fn grid_line(from: (f64, f64), to: (f64, f64)) -> String {
    format!(
        "<line x1=\"{:.1}\" y1=\"{:.1}\" x2=\"{:.1}\" y2=\"{:.1}\" stroke=\"#cccccc\"/>\n",
        from.0, from.1, to.0, to.1
    )
}

fn path(points: &[(f64, f64)], series: &Series) -> String {
    let points: Vec<_> = (points.iter())
        .map(|(x, y)| format!("{x:.1},{y:.1}"))
        .collect();
    format!(
        "<polyline points=\"{}\" fill=\"none\" stroke=\"{}\" stroke-width=\"2\" \
         stroke-dasharray=\"{}\"/>\n",
        points.join(" "),
        series.colour,
        series.dashes
    )
}

fn dot(x: f64, y: f64, series: &Series) -> String {
    let colour = series.colour;
    format!("<circle cx=\"{x:.1}\" cy=\"{y:.1}\" r=\"2.5\" fill=\"{colour}\"/>\n")
}
