//! Draws lines as SVG, in panels of one style, for light and for dark pages.

const WIDTH: f64 = 400.0;
const HEIGHT: f64 = 250.0;
const LEFT: f64 = 55.0;
/// Room for the names at the ends of the lines.
const RIGHT: f64 = 115.0;
const TOP: f64 = 42.0;
const BOTTOM: f64 = 45.0;
/// Least distance of two names.
const LINE: f64 = 14.0;
/// Number of steps of an axis with equal steps.
const STEPS: u32 = 5;

/// Colours of the sides on a light and on a dark page, which readers who don't see red or green tell apart, and the dashes of their lines.
const STYLES: [(&str, &str, &str); 5] = [
    ("#0072b2", "#56b4e9", "none"),
    ("#d55e00", "#ff9e57", "7 3"),
    ("#009e73", "#3ddbb0", "2 3"),
    ("#a8438c", "#e69acb", "9 3 2 3"),
    ("#555555", "#bbbbbb", "4 2"),
];

/// A title, and for each side its points, from left to right. A side without points isn't drawn.
pub struct Panel {
    pub title: String,
    pub lines: Vec<Vec<(f64, f64)>>,
}

/// The vertical axis of each panel, whose scale is the panel's own.
#[derive(Clone, Copy, PartialEq, Eq)]
pub enum Heights {
    /// From 0 upwards, in equal steps.
    Up,
    /// From 0 downwards, in equal steps.
    Down,
    /// By powers of ten.
    Powers,
}

/// What all panels share.
pub struct Chart<'a> {
    pub columns: usize,
    pub sides: &'a [&'a str],
    /// Names of places on the horizontal axis, from left to right.
    pub places: &'a [(f64, &'a str)],
    /// Name of the horizontal axis, and whether it is logarithmic.
    pub across: (&'a str, bool),
    pub heights: Heights,
    /// Name of the vertical axis, and how a height on it is written.
    pub upwards: (&'a str, fn(f64) -> String),
}

/// A range of the numbers on an axis, and its place in the picture.
struct Scale {
    is_log: bool,
    range: (f64, f64),
    place: (f64, f64),
}

impl Scale {
    fn at(&self, number: f64) -> f64 {
        let on = |number: f64| match self.is_log {
            true => number.log10(),
            false => number,
        };
        let share = (on(number) - on(self.range.0)) / (on(self.range.1) - on(self.range.0));
        self.place.0 + (self.place.1 - self.place.0) * share
    }
}

/// Steps of an axis, but for a power of ten.
const ROUND: [f64; 10] = [1.0, 1.5, 2.0, 2.5, 3.0, 4.0, 5.0, 6.0, 8.0, 10.0];

/// Returns the end of an axis from 0 with this number on it, in round steps.
fn end_of(greatest: f64) -> f64 {
    let least = greatest.max(1e-9) / f64::from(STEPS);
    let power = 10f64.powf(least.log10().floor());
    let step = ROUND
        .into_iter()
        .map(|factor| factor * power)
        .find(|step| *step >= least * 0.999)
        .unwrap_or(10.0 * power);
    f64::from(STEPS) * step
}

/// Returns the numbers at which a panel has a line across, in ascending order.
fn steps_of(heights: Heights, panel: &Panel) -> Vec<f64> {
    let all = panel.lines.iter().flatten().map(|point| point.1);
    let greatest = all.clone().fold(0.0, f64::max);
    if heights == Heights::Powers {
        let least = all.fold(f64::INFINITY, f64::min);
        let (first, last) = (least.log10().floor(), greatest.log10().ceil());
        let count = (last - first).max(1.0) as i32;
        return (0..=count)
            .map(|power| 10f64.powf(first + f64::from(power)))
            .collect();
    }
    let end = end_of(greatest);
    (0..=STEPS)
        .map(|step| end * f64::from(step) / f64::from(STEPS))
        .collect()
}

fn text(x: f64, y: f64, class: &str, anchor: &str, words: &str) -> String {
    format!("<text x=\"{x:.0}\" y=\"{y:.0}\" class=\"{class}\" text-anchor=\"{anchor}\">{words}</text>\n")
}

/// Returns the heights of the names, each near its line's end, with room between them.
fn apart(ends: &[(usize, f64)]) -> Vec<(usize, f64)> {
    let mut sorted = ends.to_vec();
    sorted.sort_by(|one, other| one.1.total_cmp(&other.1));
    for index in 1..sorted.len() {
        sorted[index].1 = sorted[index].1.max(sorted[index - 1].1 + LINE);
    }
    let over = sorted
        .last()
        .map_or(0.0, |last| last.1 - (HEIGHT - BOTTOM + 4.0));
    if over > 0.0 {
        let mut lowest = HEIGHT - BOTTOM + 4.0;
        for name in sorted.iter_mut().rev() {
            name.1 = name.1.min(lowest);
            lowest = name.1 - LINE;
        }
    }
    sorted
}

impl Chart<'_> {
    fn across_scale(&self) -> Scale {
        let ends = (self.places[0].0, self.places[self.places.len() - 1].0);
        Scale {
            is_log: self.across.1,
            range: ends,
            place: (LEFT, WIDTH - RIGHT),
        }
    }

    fn heights_scale(&self, steps: &[f64]) -> Scale {
        let (low, high) = (HEIGHT - BOTTOM, TOP);
        Scale {
            is_log: self.heights == Heights::Powers,
            range: (steps[0], steps[steps.len() - 1]),
            place: match self.heights {
                Heights::Down => (high, low),
                _ => (low, high),
            },
        }
    }

    fn grid(&self, x: &Scale, y: &Scale, steps: &[f64]) -> String {
        let mut out = String::new();
        for step in steps {
            let height = y.at(*step);
            out += &format!(
                "<line class=\"grid\" x1=\"{LEFT}\" y1=\"{height:.0}\" x2=\"{:.0}\" y2=\"{height:.0}\"/>\n",
                WIDTH - RIGHT
            );
            out += &text(
                LEFT - 6.0,
                height + 4.0,
                "",
                "end",
                &(self.upwards.1)(*step),
            );
        }
        for (number, name) in self.places {
            out += &text(x.at(*number), HEIGHT - BOTTOM + 16.0, "", "middle", name);
        }
        out
    }

    fn line(&self, side: usize, points: &[(f64, f64)], x: &Scale, y: &Scale) -> String {
        let places: Vec<String> = points
            .iter()
            .map(|point| format!("{:.1},{:.1}", x.at(point.0), y.at(point.1)))
            .collect();
        format!(
            "<polyline class=\"s{side}\" points=\"{}\"/>\n",
            places.join(" ")
        )
    }

    fn panel(&self, panel: &Panel) -> String {
        let steps = steps_of(self.heights, panel);
        let (x, y) = (self.across_scale(), self.heights_scale(&steps));
        let mut out = text(LEFT, TOP - 24.0, "title", "start", &panel.title);
        out += &text(LEFT, TOP - 10.0, "", "start", self.upwards.0);
        out += &self.grid(&x, &y, &steps);
        let middle = (LEFT + WIDTH - RIGHT) / 2.0;
        out += &text(middle, HEIGHT - BOTTOM + 32.0, "", "middle", self.across.0);
        let mut ends = Vec::new();
        for (side, points) in panel.lines.iter().enumerate() {
            if let Some(last) = points.last() {
                out += &self.line(side, points, &x, &y);
                ends.push((side, y.at(last.1) + 4.0));
            }
        }
        for (side, height) in apart(&ends) {
            let class = format!("n{side}");
            out += &text(
                WIDTH - RIGHT + 6.0,
                height,
                &class,
                "start",
                self.sides[side],
            );
        }
        out
    }

    /// Draws the panels in rows.
    pub fn draw(&self, panels: &[Panel]) -> String {
        let width = WIDTH * self.columns.min(panels.len()) as f64;
        let height = HEIGHT * panels.len().div_ceil(self.columns) as f64;
        let mut out = format!(
            "<svg xmlns=\"http://www.w3.org/2000/svg\" viewBox=\"0 0 {width} {height}\" width=\"{width}\" height=\"{height}\" font-family=\"sans-serif\" \
             font-size=\"12\">\n{}<rect class=\"page\" width=\"100%\" height=\"100%\"/>\n",
            style()
        );
        for (index, panel) in panels.iter().enumerate() {
            let left = WIDTH * (index % self.columns) as f64;
            let top = HEIGHT * (index / self.columns) as f64;
            out += &format!("<g transform=\"translate({left} {top})\">\n");
            out += &self.panel(panel);
            out += "</g>\n";
        }
        out + "</svg>\n"
    }
}

/// Returns the style of light pages, and what differs on dark ones.
fn style() -> String {
    let mut light = String::from(
        ".page{fill:#fff}text{fill:#333}.title{font-weight:bold}.grid{stroke:#ddd}polyline{fill:none;stroke-width:2}",
    );
    let mut dark = String::from(".page{fill:#0d1117}text{fill:#ccc}.grid{stroke:#333}");
    for (side, (on_light, on_dark, dashes)) in STYLES.iter().enumerate() {
        light += &format!(
            ".s{side}{{stroke:{on_light};stroke-dasharray:{dashes}}}.n{side}{{fill:{on_light}}}"
        );
        dark += &format!(".s{side}{{stroke:{on_dark}}}.n{side}{{fill:{on_dark}}}");
    }
    format!("<style>{light}@media(prefers-color-scheme:dark){{{dark}}}</style>\n")
}

#[cfg(test)]
mod tests {
    use super::*;

    fn drawn(heights: Heights, lines: Vec<Vec<(f64, f64)>>) -> String {
        let chart = Chart {
            columns: 1,
            sides: &["one", "two"],
            places: &[(1.0, "1"), (10.0, "10"), (100.0, "100")],
            across: ("entries", true),
            heights,
            upwards: ("ns", |height| format!("{height}")),
        };
        let title = String::from("calls");
        chart.draw(&[Panel { title, lines }])
    }

    #[test]
    fn a_line_lies_where_its_numbers_say() {
        let up = drawn(
            Heights::Up,
            vec![vec![(1.0, 0.0), (10.0, 5.0), (100.0, 10.0)]],
        );
        assert!(
            up.contains("points=\"55.0,205.0 170.0,123.5 285.0,42.0\""),
            "{up}"
        );
        let down = drawn(Heights::Down, vec![vec![(1.0, 0.0), (100.0, 10.0)]]);
        assert!(down.contains("points=\"55.0,42.0 285.0,205.0\""), "{down}");
        let powers = drawn(Heights::Powers, vec![vec![(1.0, 10.0), (100.0, 1000.0)]]);
        assert!(
            powers.contains("points=\"55.0,205.0 285.0,42.0\""),
            "{powers}"
        );
    }

    #[test]
    fn each_axis_has_its_names() {
        let up = drawn(Heights::Up, vec![vec![(1.0, 0.0), (100.0, 9.0)]]);
        for name in [
            ">0<",
            ">2<",
            ">4<",
            ">6<",
            ">8<",
            ">10<",
            ">100<",
            ">entries<",
            ">ns<",
            ">calls<",
            ">one<",
        ] {
            assert!(up.contains(name), "{name} is missing in {up}");
        }
        assert!(!up.contains(">two<"), "{up}");
    }

    #[test]
    fn names_of_neighbouring_lines_have_room() {
        let names = apart(&[(0, 100.0), (1, 102.0), (2, 208.0), (3, 209.0)]);
        assert_eq!(names, [(0, 100.0), (1, 114.0), (2, 195.0), (3, 209.0)]);
    }
}
