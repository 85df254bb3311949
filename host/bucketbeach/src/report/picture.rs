//! The picture: strips of time, in each a lane a server.

use std::fmt::Write as _;

use node::Role;

use super::html::escape;
use super::timeline::{Lane, Mark, Period, Span, State, Timeline};
use crate::story::role_name;
use crate::words::seconds;

/// How many units a second takes, at most.
const SECOND: u64 = 900;
/// The longest time that is shown.
const LONGEST: u64 = 2_000_000_000;

/// Left of the lanes, and right of them.
const LEFT: f64 = 34.0;
const RIGHT: f64 = 10.0;
/// Over the lanes, for the violation's flag.
const FLAG: f64 = 20.0;
/// A lane: marks, the band, and marks below.
const ABOVE: f64 = 13.0;
const BAND: f64 = 20.0;
const LANE: f64 = 47.0;
/// A row of the network.
const ROW: f64 = 21.0;
/// The axis.
const AXIS: f64 = 24.0;

/// The time that is shown: up to the first violation, or from the beginning.
pub fn window(timeline: &Timeline) -> (u64, u64) {
    let Some((violation, _)) = timeline.violations.first() else {
        return (0, timeline.end.clamp(1, LONGEST));
    };
    let to = violation + 60_000_000;
    let from = to.saturating_sub(LONGEST);
    // A little more at the left is no reason to cut.
    (if from < LONGEST / 8 { 0 } else { from }, to)
}

/// The whole run in one strip, where the picture shows less.
pub fn overview(timeline: &Timeline, width: u64) -> String {
    Strip::new(timeline, 0, timeline.end.max(1), width as f64).drawn()
}

/// The picture of a time, in strips of a width.
pub fn picture(timeline: &Timeline, (from, to): (u64, u64), width: u64) -> String {
    let length = (to - from).max(1);
    let units = u128::from(length) * u128::from(SECOND) / 1_000_000_000;
    let strips = (units as u64).div_ceil(width).clamp(1, 12);
    let at = |part: u64| from + (u128::from(length) * u128::from(part) / u128::from(strips)) as u64;
    let strip = |part| Strip::new(timeline, at(part), at(part + 1), width as f64).drawn();
    (0..strips).map(strip).collect()
}

/// A part of the picture that is being drawn.
struct Strip<'a> {
    timeline: &'a Timeline,
    from: u64,
    to: u64,
    width: f64,
    links: bool,
    delivery: bool,
    svg: String,
}

impl<'a> Strip<'a> {
    fn new(timeline: &'a Timeline, from: u64, to: u64, width: f64) -> Self {
        let met = |periods: &[Period]| periods.iter().any(|p| p.from < to && p.to > from);
        Strip {
            timeline,
            from,
            to,
            width,
            links: met(&timeline.links),
            delivery: met(&timeline.delivery),
            svg: String::new(),
        }
    }

    fn drawn(mut self) -> String {
        let mut y = FLAG;
        for (at, lane) in self.timeline.lanes.iter().enumerate() {
            self.lane(at + 1, lane, y);
            y += LANE;
        }
        let timeline = self.timeline;
        for (met, name, periods) in [
            (self.links, "links", &timeline.links),
            (self.delivery, "mail", &timeline.delivery),
        ] {
            if met {
                self.network(name, periods, y);
                y += ROW;
            }
        }
        self.axis(y);
        self.violations(y);
        self.framed(y + AXIS)
    }

    /// The drawing as an element.
    fn framed(&self, height: f64) -> String {
        let (width, svg) = (self.width, &self.svg);
        let about = format!("from {} to {}", seconds(self.from), seconds(self.to));
        format!(
            "<svg viewBox=\"0 0 {width} {height}\" role=\"img\" aria-label=\"{about}\">{svg}</svg>\n"
        )
    }

    // ----- Places --------------------------------------------------------------------

    /// Where a time is.
    fn x(&self, time: u64) -> f64 {
        let inner = self.width - LEFT - RIGHT;
        let time = time.clamp(self.from, self.to) - self.from;
        LEFT + inner * time as f64 / (self.to - self.from).max(1) as f64
    }

    /// Whether a moment is shown here; the last one of the run too.
    fn shows(&self, time: u64) -> bool {
        (self.from..self.to).contains(&time)
    }

    /// Whether some of a time is shown here.
    fn meets(&self, from: u64, to: u64) -> bool {
        from < self.to && to > self.from
    }

    fn text(&mut self, x: f64, y: f64, class: &str, content: &str) {
        let content = escape(content);
        let _ = write!(
            self.svg,
            "<text x=\"{x:.1}\" y=\"{y:.1}\" class=\"{class}\">{content}</text>"
        );
    }

    fn path(&mut self, class: &str, d: &str) {
        let _ = write!(self.svg, "<path class=\"{class}\" d=\"{d}\"/>");
    }

    /// A box with a title and as much of a label as fits.
    fn labelled(
        &mut self,
        (from, to): (u64, u64),
        y: f64,
        class: &str,
        title: &str,
        labels: &[&str],
    ) {
        let (x, end) = (self.x(from), self.x(to));
        let width = end - x;
        let title = escape(title);
        let _ = write!(
            self.svg,
            "<rect x=\"{x:.1}\" y=\"{y:.1}\" width=\"{width:.1}\" height=\"{BAND}\" class=\"{class}\"><title>{title}</title></rect>"
        );
        let fits = |label: &&&str| breadth(label) <= width;
        if let Some(label) = labels.iter().find(fits) {
            let class = format!("on {class}");
            self.text(x + width / 2.0, y + BAND - 5.5, &class, label);
        }
    }

    // ----- Parts ---------------------------------------------------------------------

    fn lane(&mut self, server: usize, lane: &Lane, y: f64) {
        let band = y + ABOVE;
        self.text(2.0, band + BAND - 5.5, "name", &format!("S{server}"));
        for span in &lane.spans {
            if self.meets(span.from, span.to) {
                self.span(span, band);
            }
        }
        for (time, mark) in &lane.marks {
            if self.shows(*time) {
                self.mark(*mark, *time, y);
            }
        }
    }

    fn span(&mut self, span: &Span, y: f64) {
        let ends = (span.from, span.to);
        let (from, term) = (seconds(span.from), span.term);
        let State::Runs(role) = span.state else {
            let title = format!("down from {from}");
            return self.labelled(ends, y, "down", &title, &["down", "–"]);
        };
        let (class, letter) = match role {
            Role::Follower => ("follower", "F"),
            Role::Candidate => ("candidate", "C"),
            Role::Leader => ("leader", "L"),
        };
        let title = format!("{} of term {term} from {from}", role_name(role));
        let (long, short) = (format!("{letter} {term}"), format!("{letter}{term}"));
        self.labelled(ends, y, class, &title, &[&long, &short, letter]);
    }

    /// A cross for a crash, a lightning for a cut, a triangle for a restart.
    fn mark(&mut self, mark: Mark, time: u64, y: f64) {
        let x = self.x(time);
        let path = shape(mark, x, y);
        self.path(class(mark), &path);
    }

    fn network(&mut self, name: &str, periods: &[Period], y: f64) {
        self.text(2.0, y + BAND - 7.0, "name", name);
        for period in periods {
            if self.meets(period.from, period.to) {
                let ends = (period.from, period.to);
                self.labelled(ends, y, "network", &period.text, &[&period.text, "…"]);
            }
        }
    }

    fn axis(&mut self, y: f64) {
        let (left, right) = (LEFT, self.width - RIGHT);
        self.path("axis", &format!("M{left} {y:.1}H{right}"));
        let step = self.step();
        let first = self.from.div_ceil(step) * step;
        for time in (first..=self.to).step_by(step as usize) {
            let x = self.x(time);
            self.path("axis", &format!("M{x:.1} {y:.1}v5"));
            if x > LEFT + 8.0 && x < self.width - 18.0 {
                let label = format!("{:.2}", time as f64 / 1e9);
                self.text(x, y + 18.0, "tick", &label);
            }
        }
        self.text(2.0, y + 18.0, "unit", "s");
    }

    /// Between two ticks: a round time, at least so wide that labels stay apart.
    fn step(&self) -> u64 {
        let inner = self.width - LEFT - RIGHT;
        let least = (self.to - self.from) as f64 * 56.0 / inner;
        let round = [10, 20, 50, 100, 200, 500, 1_000, 5_000].map(|ms| ms * 1_000_000);
        let fits = round.into_iter().find(|step| *step as f64 >= least);
        fits.unwrap_or(60_000_000_000)
    }

    /// A line through all lanes at each violation, and a flag at the first.
    fn violations(&mut self, bottom: f64) {
        let mut shown: Vec<u64> = Vec::new();
        let timeline = self.timeline;
        for (at, (time, name)) in timeline.violations.iter().enumerate() {
            if !self.shows(*time) || shown.contains(time) {
                continue;
            }
            shown.push(*time);
            let x = self.x(*time);
            let class = if at == 0 {
                "violation"
            } else {
                "violation later"
            };
            self.path(class, &format!("M{x:.1} {FLAG}V{bottom:.1}"));
            if at == 0 {
                self.flag(x, &format!("{name}, {}", seconds(*time)));
            }
        }
    }

    fn flag(&mut self, x: f64, label: &str) {
        let (l, r, top) = (x - 6.0, x + 6.0, FLAG - 12.0);
        self.path("flag", &format!("M{l:.1} {top}H{r:.1}L{x:.1} {FLAG}Z"));
        if x > self.width / 2.0 {
            self.text(x - 10.0, FLAG - 4.0, "flagged end", label);
        } else {
            self.text(x + 10.0, FLAG - 4.0, "flagged", label);
        }
    }
}

/// About how wide a label is.
fn breadth(label: &str) -> f64 {
    let letter = |letter: char| if letter.is_ascii() { 7.6 } else { 12.5 };
    3.0 + label.chars().map(letter).sum::<f64>()
}

fn class(mark: Mark) -> &'static str {
    match mark {
        Mark::Crash => "crash",
        Mark::Cut => "cut",
        Mark::Restart => "restart",
    }
}

/// A mark's lines, at its place over a lane or below it.
fn shape(mark: Mark, x: f64, y: f64) -> String {
    let below = y + ABOVE + BAND + 2.0;
    match mark {
        Mark::Crash => {
            let (l, r, t, b) = (x - 4.0, x + 4.0, y + 3.0, y + 11.0);
            format!("M{l:.1} {t:.1}L{r:.1} {b:.1}M{r:.1} {t:.1}L{l:.1} {b:.1}")
        }
        Mark::Cut => {
            let (l, r, t, b) = (x - 5.0, x + 5.0, y + 1.0, y + 12.0);
            let m = (t + b) / 2.0;
            format!("M{x:.1} {t:.1}L{r:.1} {m:.1}L{x:.1} {b:.1}L{l:.1} {m:.1}Z")
        }
        Mark::Restart => {
            let (l, r, b) = (x - 4.5, x + 4.5, below + 8.0);
            format!("M{x:.1} {below:.1}L{r:.1} {b:.1}L{l:.1} {b:.1}Z")
        }
    }
}

/// The stripes that all strips use: repeated gradients with hard edges, which print as lines where a
/// pattern would print as a large image.
pub fn stripes() -> String {
    let stripe = |id: &str, (x, y): (u32, u32), light: &str, dark: &str| {
        format!(
            "<linearGradient id=\"{id}\" gradientUnits=\"userSpaceOnUse\" x1=\"0\" y1=\"0\" x2=\"{x}\" y2=\"{y}\" spreadMethod=\"repeat\">\
<stop offset=\"0\" stop-color=\"{light}\"/><stop offset=\"0.6\" stop-color=\"{light}\"/>\
<stop offset=\"0.6\" stop-color=\"{dark}\"/><stop offset=\"1\" stop-color=\"{dark}\"/></linearGradient>"
        )
    };
    let candidate = stripe("slanted", (5, 5), "#fdf3d8", "#d9a93a");
    let network = stripe("upright", (4, 0), "#ffffff", "#c3c9d1");
    format!(
        "<svg class=\"stripes\" width=\"0\" height=\"0\" aria-hidden=\"true\"><defs>{candidate}{network}</defs></svg>"
    )
}

/// The legend: signs and what they mean.
pub fn legend() -> String {
    let boxed = |class: &str, letter: &str| {
        format!(
            "<rect x=\"1\" y=\"1\" width=\"32\" height=\"18\" class=\"{class}\"/><text x=\"17\" y=\"15\" class=\"on {class}\">{letter}</text>"
        )
    };
    let marked = |mark| {
        format!(
            "<path class=\"{}\" d=\"{}\"/>",
            class(mark),
            shape(mark, 17.0, 3.0)
        )
    };
    let restart = "<path class=\"restart\" d=\"M17 5L21.5 14L12.5 14Z\"/>".to_owned();
    let violation =
        "<path class=\"violation\" d=\"M17 8V20\"/><path class=\"flag\" d=\"M11 1H23L17 11Z\"/>";
    let signs = [
        (boxed("follower", "F 3"), "follower of term 3"),
        (boxed("candidate", "C 3"), "candidate"),
        (boxed("leader", "L 3"), "leader"),
        (boxed("down", "–"), "down"),
        (marked(Mark::Crash), "crash between inputs"),
        (marked(Mark::Cut), "cut: crash in an input, its writes lost"),
        (restart, "restart"),
        (
            boxed("network", "1 | 2"),
            "partition, or links and messages disturbed",
        ),
        (violation.to_owned(), "violation"),
    ];
    let sign = |(svg, words): (String, &str)| {
        format!(
            "<li><svg viewBox=\"0 0 34 20\" width=\"34\" height=\"20\" aria-hidden=\"true\">{svg}</svg> {words}</li>"
        )
    };
    let signs: String = signs.into_iter().map(sign).collect();
    format!("<ul class=\"legend\">{signs}</ul>")
}
