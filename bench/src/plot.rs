//! A figure of panels side by side, as an SVG. Both axes are logarithmic, and
//! all panels have the same vertical one.

use std::fmt::Write;

/// A curve, with its points from left to right in microseconds.
pub struct Series {
    pub label: String,
    /// Whether it has the first of the two colours.
    pub first: bool,
    pub dashed: bool,
    pub points: Vec<(f64, f64)>,
}

pub struct Panel {
    pub title: String,
    pub axis: &'static str,
    pub series: Vec<Series>,
}

const WIDTH: f64 = 360.0;
const HEIGHT: f64 = 300.0;
const LEFT: f64 = 70.0;
const TOP: f64 = 40.0;
/// Between two panels, and right of the last.
const GAP: f64 = 100.0;
const RIGHT: f64 = 24.0;
/// Below the panels: the numbers and the name of the axis, and the legend.
const BELOW: f64 = 110.0;

/// A logarithmic axis.
#[derive(Clone, Copy)]
struct Axis {
    low: f64,
    high: f64,
    length: f64,
}

impl Axis {
    fn at(self, value: f64) -> f64 {
        (value / self.low).ln() / (self.high / self.low).ln() * self.length
    }
}

/// The panels with one legend below them. They have the same curves.
pub fn figure(panels: &[Panel]) -> String {
    let all = || panels.iter().flat_map(|panel| &panel.series);
    let times = || all().flat_map(|series| series.points.iter().map(|point| point.1));
    let vertical = Axis {
        low: power_of_ten(times().fold(f64::INFINITY, f64::min), f64::floor),
        high: power_of_ten(times().fold(0.0, f64::max), f64::ceil),
        length: HEIGHT,
    };
    let count = panels.len() as f64;
    let width = LEFT + count * (WIDTH + GAP) - GAP + RIGHT;
    let height = TOP + HEIGHT + BELOW;
    let mut svg = format!(
        "<svg xmlns=\"http://www.w3.org/2000/svg\" viewBox=\"0 0 {width} {height}\" \
         width=\"{width}\" height=\"{height}\" font-family=\"sans-serif\" font-size=\"12\">\n\
         <rect width=\"100%\" height=\"100%\" fill=\"white\"/>\n"
    );
    for (place, panel) in panels.iter().enumerate() {
        let left = LEFT + place as f64 * (WIDTH + GAP);
        let _ = writeln!(svg, "<g transform=\"translate({left} {TOP})\">");
        draw(&mut svg, panel, vertical);
        svg.push_str("</g>\n");
    }
    if let Some(panel) = panels.first() {
        legend(&mut svg, panel);
    }
    svg.push_str("</svg>\n");
    svg
}

fn power_of_ten(value: f64, round: fn(f64) -> f64) -> f64 {
    10_f64.powf(round(value.log10()))
}

fn draw(svg: &mut String, panel: &Panel, vertical: Axis) {
    let places = || panel.series.iter().flat_map(|series| &series.points);
    let horizontal = Axis {
        low: places().map(|point| point.0).fold(f64::INFINITY, f64::min),
        high: places().map(|point| point.0).fold(0.0, f64::max),
        length: WIDTH,
    };
    text(svg, WIDTH / 2.0, -14.0, "middle", &panel.title);
    text(svg, WIDTH / 2.0, HEIGHT + 38.0, "middle", panel.axis);
    let _ = writeln!(
        svg,
        "<text transform=\"translate(-52 {}) rotate(-90)\" text-anchor=\"middle\">\
         microseconds of one run</text>",
        HEIGHT / 2.0
    );
    for series in panel.series.iter().take(1) {
        for (place, _) in &series.points {
            let x = horizontal.at(*place);
            grid(svg, [x, 0.0, x, HEIGHT]);
            text(svg, x, HEIGHT + 17.0, "middle", &grouped(*place));
        }
    }
    let mut time = vertical.low;
    while time <= vertical.high * 1.001 {
        let y = HEIGHT - vertical.at(time);
        grid(svg, [0.0, y, WIDTH, y]);
        text(svg, -8.0, y + 4.0, "end", &grouped(time));
        time *= 10.0;
    }
    for series in &panel.series {
        curve(svg, series, horizontal, vertical);
    }
}

fn curve(svg: &mut String, series: &Series, horizontal: Axis, vertical: Axis) {
    let place = |&(x, y): &(f64, f64)| (horizontal.at(x), HEIGHT - vertical.at(y));
    let mut path = String::new();
    for (x, y) in series.points.iter().map(place) {
        let _ = write!(path, "{x:.1},{y:.1} ");
    }
    let path = path.trim_end();
    let style = style(series);
    let _ = writeln!(svg, "<polyline points=\"{path}\" fill=\"none\" {style}/>");
    for (x, y) in series.points.iter().map(place) {
        let colour = colour(series);
        let _ = writeln!(
            svg,
            "<circle cx=\"{x:.1}\" cy=\"{y:.1}\" r=\"2.5\" fill=\"{colour}\"/>"
        );
    }
}

fn colour(series: &Series) -> &'static str {
    if series.first { "#c2410c" } else { "#1d4ed8" }
}

fn style(series: &Series) -> String {
    let dashes = if series.dashed {
        " stroke-dasharray=\"6 4\""
    } else {
        ""
    };
    format!("stroke=\"{}\" stroke-width=\"1.8\"{dashes}", colour(series))
}

/// Two columns below the panels.
fn legend(svg: &mut String, panel: &Panel) {
    for (place, series) in panel.series.iter().enumerate() {
        let x = LEFT + (place % 2) as f64 * (WIDTH + GAP);
        let y = TOP + HEIGHT + 64.0 + (place / 2) as f64 * 20.0;
        let style = style(series);
        let end = x + 36.0;
        let _ = writeln!(
            svg,
            "<line x1=\"{x}\" y1=\"{y}\" x2=\"{end}\" y2=\"{y}\" {style}/>"
        );
        text(svg, end + 8.0, y + 4.0, "start", &series.label);
    }
}

fn grid(svg: &mut String, [x1, y1, x2, y2]: [f64; 4]) {
    let _ = writeln!(
        svg,
        "<line x1=\"{x1:.1}\" y1=\"{y1:.1}\" x2=\"{x2:.1}\" y2=\"{y2:.1}\" stroke=\"#d4d4d4\"/>"
    );
}

fn text(svg: &mut String, x: f64, y: f64, anchor: &str, words: &str) {
    let _ = writeln!(
        svg,
        "<text x=\"{x:.1}\" y=\"{y:.1}\" text-anchor=\"{anchor}\">{words}</text>"
    );
}

/// A whole number with a comma before each three digits.
pub fn grouped(number: f64) -> String {
    let digits = format!("{number:.0}");
    let mut grouped = String::new();
    for (place, digit) in digits.chars().enumerate() {
        if place > 0 && (digits.len() - place).is_multiple_of(3) {
            grouped.push(',');
        }
        grouped.push(digit);
    }
    grouped
}

#[cfg(test)]
mod tests {
    use super::*;

    #[test]
    fn commas_part_three_digits() {
        assert_eq!(grouped(7.0), "7");
        assert_eq!(grouped(999.0), "999");
        assert_eq!(grouped(1_000.0), "1,000");
        assert_eq!(grouped(1_234_567.0), "1,234,567");
    }

    #[test]
    fn an_axis_goes_from_end_to_end() {
        let axis = Axis {
            low: 10.0,
            high: 1_000.0,
            length: 200.0,
        };
        assert_eq!(axis.at(10.0), 0.0);
        assert!((axis.at(100.0) - 100.0).abs() < 1e-9);
        assert!((axis.at(1_000.0) - 200.0).abs() < 1e-9);
    }
}
