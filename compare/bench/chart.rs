//! The chart: one panel for each length of keys, both scales logarithmic, lists that overlap by half.

use crate::lists::{Arrangement, Timed, LENGTHS, SIZES};

const WIDTH: f64 = 300.0;
const HEIGHT: f64 = 300.0;
const LEFT: f64 = 70.0;
const TOP: f64 = 70.0;
const GAP: f64 = 30.0;

/// The scale of times, as powers of ten of a nanosecond.
const FROM: i32 = 2;
const TO: i32 = 10;
const UNITS: [&str; 9] = [
    "100 ns", "1 µs", "10 µs", "100 µs", "1 ms", "10 ms", "100 ms", "1 s", "10 s",
];

/// A line of the chart: its name, its colour, its dashes, and its times.
type Drawn = (&'static str, &'static str, &'static str, fn(&Timed) -> f64);

const DRAWN: [Drawn; 4] = [
    ("the original", "#b3451f", "", |timed| timed.rust),
    ("ours, proved", "#1f5fb3", "", |timed| timed.ours),
    ("sweep by hand, checking", "#3a7d34", "", |timed| {
        timed.checking
    }),
    ("sweep by hand, trusting", "#3a7d34", "5 4", |timed| {
        timed.trusting
    }),
];

pub fn svg(lists: &[Timed]) -> String {
    let panels = LENGTHS.len() as f64;
    let width = LEFT + panels * (WIDTH + GAP);
    let height = TOP + HEIGHT + 50.0;
    let mut svg = format!(
        "<svg xmlns=\"http://www.w3.org/2000/svg\" viewBox=\"0 0 {width} {height}\" font-family=\"sans-serif\" font-size=\"12\">\n\
         <rect width=\"{width}\" height=\"{height}\" fill=\"white\"/>\n\
         <text x=\"{LEFT}\" y=\"20\" font-size=\"15\">The three lists, half-overlapping: time of one call by items of each list</text>\n"
    );
    for (at, (name, colour, dashes, _)) in DRAWN.iter().enumerate() {
        let x = LEFT + 190.0 * at as f64;
        svg += &stroke(&[(x, 38.0), (x + 26.0, 38.0)], colour, dashes);
        svg += &format!("<text x=\"{}\" y=\"42\">{name}</text>\n", x + 32.0);
    }
    for (at, length) in LENGTHS.iter().enumerate() {
        let left = LEFT + at as f64 * (WIDTH + GAP);
        svg += &panel(lists, *length, left, at == 0);
    }
    svg + "</svg>\n"
}

fn panel(lists: &[Timed], length: usize, left: f64, first: bool) -> String {
    let bottom = TOP + HEIGHT;
    let right = left + WIDTH;
    let steps = (SIZES.len() - 1) as f64;
    let across = |items: usize| left + WIDTH * (items as f64 / SIZES[0] as f64).log2() / steps;
    let up = |time: f64| bottom - HEIGHT * (time.log10() - f64::from(FROM)) / f64::from(TO - FROM);
    let mut svg = format!(
        "<text x=\"{left}\" y=\"{}\">keys of {length} bytes</text>\n",
        TOP - 8.0
    );
    for (power, unit) in (FROM..=TO).zip(UNITS) {
        let y = up(10f64.powi(power));
        svg += &line((left, y), (right, y));
        if first {
            svg += &format!(
                "<text x=\"{}\" y=\"{:.1}\" text-anchor=\"end\">{unit}</text>\n",
                left - 8.0,
                y + 4.0
            );
        }
    }
    for items in SIZES {
        let x = across(items);
        svg += &line((x, TOP), (x, bottom));
        svg += &format!(
            "<text x=\"{x:.1}\" y=\"{}\" text-anchor=\"middle\">{items}</text>\n",
            bottom + 18.0
        );
    }
    for (_, colour, dashes, of) in DRAWN {
        let shown = |timed: &&Timed| {
            timed.alike
                && timed.length == length
                && timed.arrangement == Arrangement::HalfOverlapping
        };
        let point = |timed: &Timed| (across(timed.items), up(of(timed)));
        let points: Vec<(f64, f64)> = lists.iter().filter(shown).map(point).collect();
        svg += &stroke(&points, colour, dashes);
    }
    svg
}

/// A thin line of the scales.
fn line(from: (f64, f64), to: (f64, f64)) -> String {
    format!(
        "<path d=\"M{:.1},{:.1} L{:.1},{:.1}\" stroke=\"#dddddd\"/>\n",
        from.0, from.1, to.0, to.1
    )
}

fn stroke(points: &[(f64, f64)], colour: &str, dashes: &str) -> String {
    let places: Vec<String> = points
        .iter()
        .map(|(x, y)| format!("{x:.1},{y:.1}"))
        .collect();
    let path = places.join(" L");
    format!("<path d=\"M{path}\" fill=\"none\" stroke=\"{colour}\" stroke-width=\"2\" stroke-dasharray=\"{dashes}\"/>\n")
}
