//! A picture of the growth: a panel a series, with time a cell over size, both by their logarithms.

use std::fmt::Write;

use super::growth::{Point, Series};

const WIDTH: f64 = 230.0;
const HEIGHT: f64 = 150.0;
/// Left of a panel, between two rows of them, and above the first row: for numbers and titles.
const LEFT: f64 = 52.0;
const BETWEEN: f64 = 58.0;
const TOP: f64 = 60.0;

/// The sides with their colours.
const SIDES: [(&str, &str); 3] = [("ours", "#0072b2"), ("toydb", "#d55e00"), ("SQLite", "#767676")];

/// The picture as SVG, three panels a row.
pub fn picture(grown: &[(Series, Vec<Point>)]) -> String {
    let rows = grown.len().div_ceil(3) as f64;
    let (width, height) = (3.0 * (LEFT + WIDTH) + 16.0, TOP + rows * (HEIGHT + BETWEEN) - 30.0);
    let mut svg = format!(
        "<svg xmlns=\"http://www.w3.org/2000/svg\" viewBox=\"0 0 {width} {height}\" font-family=\"sans-serif\" \
         font-size=\"12\">\n<rect width=\"{width}\" height=\"{height}\" fill=\"#ffffff\"/>\n"
    );
    text(&mut svg, LEFT, 20.0, "start", "#000000", "Nanoseconds a cell of the plan, over the size");
    for (side, (name, colour)) in SIDES.iter().enumerate() {
        let x = LEFT + 330.0 + 90.0 * side as f64;
        line(&mut svg, colour, 2.5, &[(x, 16.0), (x + 24.0, 16.0)]);
        text(&mut svg, x + 30.0, 20.0, "start", "#000000", name);
    }
    for (at, (series, points)) in grown.iter().enumerate() {
        let (column, row) = ((at % 3) as f64, (at / 3) as f64);
        let corner = (LEFT + column * (LEFT + WIDTH), TOP + row * (HEIGHT + BETWEEN));
        panel(&mut svg, corner, series, points);
    }
    svg + "</svg>\n"
}

fn panel(svg: &mut String, (left, top): (f64, f64), series: &Series, points: &[Point]) {
    let times = || points.iter().flat_map(|point| point.times).flatten();
    let low = times().fold(f64::MAX, f64::min).log10().floor();
    let high = times().fold(0.0, f64::max).log10().ceil().max(low + 1.0);
    let last = points.last().map_or(1, |point| point.size).max(2);
    let x = |size: usize| left + WIDTH * (size as f64).log2() / (last as f64).log2();
    let y = |time: f64| top + HEIGHT * (high - time.log10()) / (high - low);
    text(svg, left, top - 8.0, "start", "#000000", &format!("{}: {}", series.name, series.counts));
    for power in low as i32..=high as i32 {
        let height = y(10f64.powi(power));
        line(svg, "#dddddd", 1.0, &[(left, height), (left + WIDTH, height)]);
        text(svg, left - 6.0, height + 4.0, "end", "#000000", &thousands(10u64.pow(power as u32)));
    }
    for size in [1, 4, 16, 64, 256].into_iter().filter(|&size| x(last) - x(size) > 22.0).chain([last]) {
        text(svg, x(size), top + HEIGHT + 16.0, "middle", "#000000", &size.to_string());
    }
    // Ours is drawn last, above the others.
    for (side, (_, colour)) in SIDES.iter().enumerate().rev() {
        let curve: Vec<_> =
            points.iter().filter_map(|point| Some((x(point.size), y(point.times[side]?)))).collect();
        line(svg, colour, 2.5, &curve);
    }
}

fn thousands(number: u64) -> String {
    match number {
        1_000_000.. => format!("{} M", number / 1_000_000),
        1_000.. => format!("{} k", number / 1_000),
        _ => number.to_string(),
    }
}

fn line(svg: &mut String, colour: &str, width: f64, points: &[(f64, f64)]) {
    let points: Vec<_> = points.iter().map(|(x, y)| format!("{x:.1},{y:.1}")).collect();
    let points = points.join(" ");
    let _ = writeln!(
        svg,
        "<polyline points=\"{points}\" fill=\"none\" stroke=\"{colour}\" stroke-width=\"{width}\"/>"
    );
}

fn text(svg: &mut String, x: f64, y: f64, anchor: &str, colour: &str, text: &str) {
    let text = text.replace('&', "&amp;").replace('<', "&lt;").replace('>', "&gt;");
    let _ = writeln!(
        svg,
        "<text x=\"{x:.1}\" y=\"{y:.1}\" text-anchor=\"{anchor}\" fill=\"{colour}\">{text}</text>"
    );
}
