//! Charts as SVG.

use std::fmt::Write;

/// The width of a picture, and of the margins of a chart in it.
pub const WIDTH: f64 = 720.0;
const LEFT: f64 = 64.0;
const RIGHT: f64 = 24.0;
const TOP: f64 = 36.0;
const BOTTOM: f64 = 52.0;
/// The height of a chart, and of a row of the legend.
pub const HEIGHT: f64 = 270.0;
const ROW: f64 = 22.0;

/// How a line is drawn. Dashes and marks tell lines apart in print without colours.
#[derive(Clone, Copy)]
pub struct Style {
    pub colour: &'static str,
    pub dashes: &'static str,
    pub mark: Mark,
}

/// The mark of a point.
#[derive(Clone, Copy, PartialEq, Eq)]
pub enum Mark {
    Circle,
    Square,
    Triangle,
    Diamond,
    Cross,
    Plus,
    Ring,
}

/// A line of a chart.
pub struct Line {
    pub style: Style,
    pub points: Vec<(f64, f64)>,
    pub has_marks: bool,
}

/// A chart: its text, and its lines.
pub struct Chart {
    pub title: String,
    pub x_label: &'static str,
    pub y_label: &'static str,
    pub is_logarithmic: bool,
    pub lines: Vec<Line>,
}

/// An axis with round numbers.
struct Axis {
    start: f64,
    end: f64,
    ticks: Vec<f64>,
    is_logarithmic: bool,
}

impl Axis {
    /// Returns an axis from 0 to a round number that is at least `most`.
    fn linear(most: f64) -> Axis {
        let step = round_step(most.max(1e-9) / 5.0);
        let count = (most / step).ceil().max(1.0);
        let ticks = (0..=count as usize).map(|at| at as f64 * step).collect();
        Axis {
            start: 0.0,
            end: count * step,
            ticks,
            is_logarithmic: false,
        }
    }

    /// Returns an axis over these positive numbers, with ticks at 1, 2 and 5 times powers of ten, or only
    /// at powers of ten if there are many of them.
    fn logarithmic(least: f64, most: f64) -> Axis {
        let (first, last) = (least.log10().floor() as i32, most.log10().ceil() as i32);
        let factors: &[f64] = if last - first > 4 {
            &[1.0]
        } else {
            &[1.0, 2.0, 5.0]
        };
        let all: Vec<f64> = (first..=last)
            .flat_map(|power| factors.iter().map(move |factor| factor * 10f64.powi(power)))
            .collect();
        let start = all
            .iter()
            .copied()
            .filter(|tick| *tick <= least)
            .fold(all[0], f64::max);
        let end = all
            .iter()
            .copied()
            .filter(|tick| *tick >= most && *tick > start)
            .fold(f64::INFINITY, f64::min);
        let ticks = all
            .into_iter()
            .filter(|tick| (start..=end).contains(tick))
            .collect();
        Axis {
            start,
            end,
            ticks,
            is_logarithmic: true,
        }
    }

    /// Returns where a number is on the axis, from 0 to 1.
    fn place(&self, number: f64) -> f64 {
        if self.is_logarithmic {
            (number / self.start).ln() / (self.end / self.start).ln()
        } else {
            (number - self.start) / (self.end - self.start)
        }
    }
}

/// Returns 1, 2 or 5 times a power of ten, the least one that isn't below `least`.
fn round_step(least: f64) -> f64 {
    let power = 10f64.powf(least.log10().floor());
    let steps = [1.0, 2.0, 5.0, 10.0].map(|factor| factor * power);
    // The least one may be a rounding error below its round number.
    steps
        .into_iter()
        .find(|step| *step >= least * 0.999_999)
        .unwrap_or(10.0 * power)
}

/// Returns a round number as text, as `20k` or `5M`.
fn short(number: f64) -> String {
    let scales = [(1e12, "T"), (1e9, "G"), (1e6, "M"), (1e3, "k")];
    let scale = scales
        .into_iter()
        .find(|(scale, _)| number >= *scale * 0.999_999);
    let (scale, letter) = scale.unwrap_or((1.0, ""));
    let digits = format!("{:.3}", number / scale);
    format!(
        "{}{letter}",
        digits.trim_end_matches('0').trim_end_matches('.')
    )
}

/// Returns a picture of the charts, one below another, under a title and a legend.
pub fn picture(title: &str, legend: &[(String, Style)], charts: &[Chart]) -> String {
    let (keys, top) = legend_rows(legend);
    let height = top + HEIGHT * charts.len() as f64;
    let mut out = format!(
        "<svg xmlns=\"http://www.w3.org/2000/svg\" width=\"{WIDTH}\" height=\"{height}\" viewBox=\"0 0 {WIDTH} {height}\" \
         font-family=\"sans-serif\" font-size=\"13\">\n<rect width=\"100%\" height=\"100%\" fill=\"white\"/>\n"
    );
    out += &text(LEFT, 24.0, "start", " font-weight=\"bold\"", title);
    out += &keys;
    for (at, chart) in charts.iter().enumerate() {
        out += &draw(chart, top + HEIGHT * at as f64);
    }
    out + "</svg>\n"
}

/// Returns the legend, and the height below it.
fn legend_rows(legend: &[(String, Style)]) -> (String, f64) {
    let (mut x, mut y) = (LEFT, 48.0);
    let mut out = String::new();
    for (name, style) in legend {
        let width = 52.0 + 8.0 * name.len() as f64;
        if x + width > WIDTH - RIGHT {
            (x, y) = (LEFT, y + ROW);
        }
        let line = Line {
            style: *style,
            points: vec![(x, y), (x + 28.0, y)],
            has_marks: false,
        };
        out += &stroke(&line.points, style);
        out += &mark(x + 14.0, y, style);
        out += &text(x + 34.0, y + 4.0, "start", "", name);
        x += width;
    }
    (out, y + ROW / 2.0)
}

fn draw(chart: &Chart, top: f64) -> String {
    let points = || chart.lines.iter().flat_map(|line| line.points.iter());
    let most = |values: &mut dyn Iterator<Item = f64>| values.fold(0.0, f64::max);
    let (most_x, most_y) = (
        most(&mut points().map(|point| point.0)),
        most(&mut points().map(|point| point.1)),
    );
    let least_x = points().map(|point| point.0).fold(f64::INFINITY, f64::min);
    let x_axis = if chart.is_logarithmic && least_x > 0.0 && least_x < most_x {
        Axis::logarithmic(least_x, most_x)
    } else {
        Axis::linear(most_x)
    };
    let y_axis = Axis::linear(most_y);
    let (left, right) = (LEFT, WIDTH - RIGHT);
    let (upper, lower) = (top + TOP, top + HEIGHT - BOTTOM);
    let x = |number: f64| left + (right - left) * x_axis.place(number);
    let y = |number: f64| lower - (lower - upper) * y_axis.place(number);
    let mut out = text(left, top + TOP - 14.0, "start", "", &chart.title);
    for tick in &y_axis.ticks {
        let at = y(*tick);
        let _ = writeln!(out, "<line x1=\"{left:.1}\" y1=\"{at:.1}\" x2=\"{right:.1}\" y2=\"{at:.1}\" stroke=\"#dddddd\"/>");
        out += &text(left - 8.0, at + 4.0, "end", "", &short(*tick));
    }
    for tick in &x_axis.ticks {
        let at = x(*tick);
        let end = lower + 5.0;
        let _ = writeln!(out, "<line x1=\"{at:.1}\" y1=\"{lower:.1}\" x2=\"{at:.1}\" y2=\"{end:.1}\" stroke=\"#666666\"/>");
        out += &text(at, lower + 19.0, "middle", "", &short(*tick));
    }
    let _ = writeln!(out, "<line x1=\"{left:.1}\" y1=\"{lower:.1}\" x2=\"{right:.1}\" y2=\"{lower:.1}\" stroke=\"#666666\"/>");
    out += &text(
        (left + right) / 2.0,
        lower + 37.0,
        "middle",
        "",
        chart.x_label,
    );
    let middle = (upper + lower) / 2.0;
    out += &text(
        16.0,
        middle,
        "middle",
        &format!(" transform=\"rotate(-90 16 {middle:.1})\""),
        chart.y_label,
    );
    for line in &chart.lines {
        let places: Vec<(f64, f64)> = line
            .points
            .iter()
            .map(|point| (x(point.0), y(point.1)))
            .collect();
        out += &stroke(&places, &line.style);
        if line.has_marks || places.len() == 1 {
            places
                .iter()
                .for_each(|(x, y)| out += &mark(*x, *y, &line.style));
        }
    }
    out
}

fn stroke(points: &[(f64, f64)], style: &Style) -> String {
    let points: Vec<String> = points
        .iter()
        .map(|(x, y)| format!("{x:.1},{y:.1}"))
        .collect();
    // Some programs refuse an empty list of dashes.
    let dashes = if style.dashes.is_empty() {
        String::new()
    } else {
        format!(" stroke-dasharray=\"{}\"", style.dashes)
    };
    format!(
        "<polyline points=\"{}\" fill=\"none\" stroke=\"{}\" stroke-width=\"2\"{dashes}/>\n",
        points.join(" "),
        style.colour,
    )
}

fn mark(x: f64, y: f64, style: &Style) -> String {
    let shape = |points: &[(f64, f64)]| {
        let points: Vec<String> = points
            .iter()
            .map(|(dx, dy)| format!("{:.1},{:.1}", x + dx, y + dy))
            .collect();
        format!(
            "<polygon points=\"{}\" fill=\"{}\"/>\n",
            points.join(" "),
            style.colour
        )
    };
    match style.mark {
        Mark::Circle => format!(
            "<circle cx=\"{x:.1}\" cy=\"{y:.1}\" r=\"4\" fill=\"{}\"/>\n",
            style.colour
        ),
        Mark::Ring => {
            format!("<circle cx=\"{x:.1}\" cy=\"{y:.1}\" r=\"3.5\" fill=\"white\" stroke=\"{}\" stroke-width=\"2\"/>\n", style.colour)
        }
        Mark::Square => shape(&[(-4.0, -4.0), (4.0, -4.0), (4.0, 4.0), (-4.0, 4.0)]),
        Mark::Triangle => shape(&[(0.0, -5.0), (5.0, 4.0), (-5.0, 4.0)]),
        Mark::Diamond => shape(&[(0.0, -5.0), (5.0, 0.0), (0.0, 5.0), (-5.0, 0.0)]),
        Mark::Cross => {
            let (left, right, upper, lower) = (x - 4.0, x + 4.0, y - 4.0, y + 4.0);
            format!(
                "<path d=\"M{left:.1} {upper:.1}L{right:.1} {lower:.1}M{left:.1} {lower:.1}L{right:.1} {upper:.1}\" \
                 stroke=\"{}\" stroke-width=\"2\"/>\n",
                style.colour
            )
        }
        Mark::Plus => {
            let (left, right, upper, lower) = (x - 5.0, x + 5.0, y - 5.0, y + 5.0);
            format!(
                "<path d=\"M{left:.1} {y:.1}L{right:.1} {y:.1}M{x:.1} {upper:.1}L{x:.1} {lower:.1}\" \
                 stroke=\"{}\" stroke-width=\"2\"/>\n",
                style.colour
            )
        }
    }
}

/// Returns a text at a place. `more` has further attributes, each after a blank.
fn text(x: f64, y: f64, anchor: &str, more: &str, words: &str) -> String {
    format!(
        "<text x=\"{x:.1}\" y=\"{y:.1}\" text-anchor=\"{anchor}\"{more}>{}</text>\n",
        escaped(words)
    )
}

/// Returns a text without the characters that XML uses.
fn escaped(words: &str) -> String {
    let visible = words.chars().filter(|letter| !letter.is_control());
    visible
        .collect::<String>()
        .replace('&', "&amp;")
        .replace('<', "&lt;")
        .replace('>', "&gt;")
}

#[cfg(test)]
mod tests {
    use super::*;

    #[test]
    fn axes_have_round_numbers() {
        assert_eq!(Axis::linear(72.3).ticks, [0.0, 20.0, 40.0, 60.0, 80.0]);
        assert_eq!(Axis::linear(100.0).ticks.last(), Some(&100.0));
        assert_eq!(Axis::linear(0.0).ticks.len(), 2);
        assert_eq!(
            Axis::logarithmic(3.0, 80.0).ticks,
            [2.0, 5.0, 10.0, 20.0, 50.0, 100.0]
        );
        assert_eq!(
            Axis::logarithmic(10.0, 100.0).ticks,
            [10.0, 20.0, 50.0, 100.0]
        );
        assert_eq!(Axis::logarithmic(7.0, 8e6).ticks.len(), 8);
    }

    #[test]
    fn places_go_from_0_to_1() {
        let axis = Axis::linear(8.0);
        assert_eq!(
            [axis.place(0.0), axis.place(4.0), axis.place(8.0)],
            [0.0, 0.5, 1.0]
        );
        let axis = Axis::logarithmic(1.0, 100.0);
        let places = [axis.place(1.0), axis.place(10.0), axis.place(100.0)];
        assert!(places
            .iter()
            .zip([0.0, 0.5, 1.0])
            .all(|(place, wanted)| (place - wanted).abs() < 1e-12));
    }

    #[test]
    fn numbers_are_short() {
        let texts = [0.0, 0.5, 40.0, 1000.0, 25_000.0, 5e6, 2e9].map(short);
        assert_eq!(texts, ["0", "0.5", "40", "1k", "25k", "5M", "2G"]);
    }

    #[test]
    fn a_title_is_escaped() {
        assert_eq!(escaped("a<b>&\u{1b}"), "a&lt;b&gt;&amp;");
    }
}
