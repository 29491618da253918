//! The plot of time against size: an SVG of two panels, both axes of each logarithmic, with a guide of slope one.

use std::iter;

use crate::calls::Side;
use crate::cases::{Case, Family, SIZES};
use crate::costs::Cost;
use crate::figures::Figures;
use crate::shapes::Shape;

/// How long a factor of ten is on every axis: the same, so that slope one is drawn as it is.
const DECADE: f64 = 170.0;

/// The room left of the panels, between them, above and below.
const LEFT: f64 = 84.0;
const BETWEEN: f64 = 76.0;
const TOP: f64 = 118.0;
const BELOW: f64 = 60.0;
const RIGHT: f64 = 28.0;

/// Told apart by colour, by dashes and by marks: the two lines lie close to each other.
struct Style {
    side: Side,
    colour: &'static str,
    dashes: &'static str,
    /// The size of the mark, and what fills it.
    mark: f64,
    fill: &'static str,
}

const STYLES: [Style; 2] = [
    Style {
        side: Side::Library,
        colour: "#0b4f8a",
        dashes: "none",
        mark: 3.0,
        fill: "#0b4f8a",
    },
    Style {
        side: Side::Yardstick,
        colour: "#c2571a",
        dashes: "7 4",
        mark: 5.0,
        fill: "none",
    },
];

/// The guide's look.
const GUIDE: &str = "stroke=\"#666\" stroke-width=\"1.2\" stroke-dasharray=\"1.5 3.5\"";

/// A logarithmic axis, and where on the picture it starts; it goes up where it is turned.
struct Axis {
    low: f64,
    high: f64,
    start: f64,
    turned: bool,
}

impl Axis {
    fn length(&self) -> f64 {
        DECADE * (self.high / self.low).log10()
    }

    fn at(&self, value: f64) -> f64 {
        let along = DECADE * (value / self.low).log10();
        if self.turned {
            self.start - along
        } else {
            self.start + along
        }
    }

    fn holds(&self, value: f64) -> bool {
        (self.low * 0.999..self.high * 1.001).contains(&value)
    }
}

/// One of the two panels: what is called, by what its size is told, and the points of each side.
struct Panel {
    title: &'static str,
    size: &'static str,
    points: [Vec<(f64, f64)>; 2],
}

impl Panel {
    fn all(&self) -> impl Iterator<Item = &(f64, f64)> {
        self.points.iter().flatten()
    }

    /// The panel of a call on the refutations of the sizes, each as large as it is told.
    fn of(
        runs: &[Figures],
        (title, call): (&'static str, fn(Family) -> Case),
        (size, told): (&'static str, fn(&Shape) -> usize),
    ) -> Panel {
        let points = STYLES.map(|Style { side, .. }| {
            let point = |family| {
                let time = Cost::of(call(family)).time(runs, side);
                (told(&Shape::of(family)) as f64, time)
            };
            SIZES.map(Family::Sized).map(point).to_vec()
        });
        Panel {
            title,
            size,
            points,
        }
    }
}

/// The SVG as it is written.
struct Drawing {
    out: String,
}

impl Drawing {
    fn put(&mut self, element: &str) {
        self.out += element;
        self.out.push('\n');
    }

    fn line(&mut self, (x1, y1): (f64, f64), (x2, y2): (f64, f64), look: &str) {
        self.put(&format!(
            "<line x1=\"{x1:.1}\" y1=\"{y1:.1}\" x2=\"{x2:.1}\" y2=\"{y2:.1}\" {look}/>"
        ));
    }

    /// Text at a point, which is its start, its middle or its end.
    fn text(&mut self, (x, y): (f64, f64), anchor: &str, look: &str, text: &str) {
        let text = text.replace('&', "&amp;").replace('<', "&lt;");
        self.put(&format!(
            "<text x=\"{x:.1}\" y=\"{y:.1}\" text-anchor=\"{anchor}\" {look}>{text}</text>"
        ));
    }

    /// A line through the points, with a mark at each.
    fn series(&mut self, style: &Style, points: &[(f64, f64)]) {
        let Style {
            colour,
            dashes,
            mark,
            fill,
            ..
        } = style;
        let path: Vec<String> = points
            .iter()
            .map(|(x, y)| format!("{x:.1},{y:.1}"))
            .collect();
        self.put(&format!(
            "<polyline points=\"{}\" fill=\"none\" stroke=\"{colour}\" stroke-width=\"1.6\" stroke-dasharray=\"{dashes}\"/>",
            path.join(" ")
        ));
        for (x, y) in points {
            self.put(&format!(
                "<circle cx=\"{x:.1}\" cy=\"{y:.1}\" r=\"{mark}\" fill=\"{fill}\" stroke=\"{colour}\" stroke-width=\"1.4\"/>"
            ));
        }
    }

    fn panel(&mut self, panel: &Panel, across: &Axis, up: &Axis) {
        let (left, right) = (across.start, across.start + across.length());
        let (bottom, top) = (up.start, up.start - up.length());
        for time in marks().filter(|time| up.holds(*time)) {
            let y = up.at(time);
            self.line((left, y), (right, y), "stroke=\"#e2e2e2\"");
            self.text((left - 8.0, y + 4.0), "end", "", &named(time));
        }
        for size in powers_of_two().filter(|size| across.holds(*size)) {
            let x = across.at(size);
            self.line((x, bottom), (x, top), "stroke=\"#e2e2e2\"");
            let name = format!("{size}");
            self.text((x, bottom + 19.0), "middle", "", &name);
        }
        self.put(&format!(
            "<rect x=\"{left:.1}\" y=\"{top:.1}\" width=\"{:.1}\" height=\"{:.1}\" fill=\"none\" stroke=\"#444\"/>",
            right - left,
            bottom - top
        ));
        let middle = (left + right) / 2.0;
        let bold = "font-weight=\"bold\"";
        self.text((middle, top - 10.0), "middle", bold, panel.title);
        self.text((middle, bottom + 42.0), "middle", "", panel.size);

        let [start, end] = guide(panel, across, up);
        self.line(
            (across.at(start.0), up.at(start.1)),
            (across.at(end.0), up.at(end.1)),
            GUIDE,
        );
        for (style, points) in STYLES.iter().zip(&panel.points) {
            let at = |(size, time): &(f64, f64)| (across.at(*size), up.at(*time));
            let points: Vec<(f64, f64)> = points.iter().map(at).collect();
            self.series(style, &points);
        }
    }

    /// What the lines are, side by side.
    fn legend(&mut self, y: f64) {
        let mut x = LEFT;
        for style in &STYLES {
            self.series(style, &[(x, y), (x + 44.0, y)]);
            self.text((x + 54.0, y + 4.0), "start", "", &style.side.to_string());
            x += 150.0;
        }
        self.line((x, y), (x + 44.0, y), GUIDE);
        let guide = "slope one: time proportional to size";
        self.text((x + 52.0, y + 4.0), "start", "", guide);
    }
}

fn powers_of_two() -> impl Iterator<Item = f64> {
    (0..32).map(|power| f64::from(1_u32 << power))
}

/// The times that can be marked: one, two and five of each power of ten.
fn marks() -> impl Iterator<Item = f64> {
    let decades = iter::successors(Some(1.0), |decade| Some(decade * 10.0));
    decades
        .take(12)
        .flat_map(|decade| [decade, 2.0 * decade, 5.0 * decade])
}

/// The axis of the times from the mark below the least to the one above the greatest.
fn upwards(least: f64, greatest: f64) -> Axis {
    let low = marks().take_while(|mark| *mark < least).last();
    let high = marks().find(|mark| *mark > greatest);
    let mut axis = Axis {
        low: low.unwrap_or(least),
        high: high.unwrap_or(greatest),
        start: 0.0,
        turned: true,
    };
    axis.start = TOP + axis.length();
    axis
}

/// Nanoseconds as a person reads them.
fn named(nanoseconds: f64) -> String {
    if nanoseconds < 1_000.0 {
        format!("{nanoseconds:.0} ns")
    } else {
        format!("{:.0} µs", nanoseconds / 1_000.0)
    }
}

/// The two ends of the guide: below all points, from edge to edge.
fn guide(panel: &Panel, across: &Axis, up: &Axis) -> [(f64, f64); 2] {
    let least = panel.all().map(|(size, time)| time / size);
    let slope = least.fold(f64::MAX, f64::min) / 1.6;
    let first = across.low.max(up.low / slope);
    [first, across.high].map(|size| (size, slope * size))
}

/// The SVG of the runs' medians, with the machine and the date in it.
pub fn svg(runs: &[Figures], processor: &str, date: &str) -> String {
    let clauses = "clauses (A, B and results)";
    let panels = [
        Panel::of(
            runs,
            ("check", Case::Check),
            (clauses, |shape| shape.clauses),
        ),
        Panel::of(
            runs,
            ("evaluate", Case::Evaluate),
            ("gates", |shape| shape.gates),
        ),
    ];
    let times = || panels.iter().flat_map(Panel::all).map(|point| point.1);
    let up = upwards(
        times().fold(f64::MAX, f64::min),
        times().fold(f64::MIN, f64::max),
    );

    let mut left = LEFT;
    let across = panels.each_ref().map(|panel| {
        let sizes = || panel.all().map(|point| point.0);
        let axis = Axis {
            low: 0.8 * sizes().fold(f64::MAX, f64::min),
            high: 1.25 * sizes().fold(f64::MIN, f64::max),
            start: left,
            turned: false,
        };
        left += axis.length() + BETWEEN;
        axis
    });
    let (width, height) = (left - BETWEEN + RIGHT, up.start + BELOW);

    let mut drawing = Drawing {
        out: format!(
            "<!-- What a call costs against the size of what it takes, drawn by the benchmarks. -->\n\
             <svg xmlns=\"http://www.w3.org/2000/svg\" viewBox=\"0 0 {width:.0} {height:.0}\" font-family=\"sans-serif\" font-size=\"13\">\n\
             <rect width=\"{width:.0}\" height=\"{height:.0}\" fill=\"white\"/>\n"
        ),
    };
    let title = "Time of one call against size, both axes logarithmic";
    drawing.text((LEFT, 26.0), "start", "font-size=\"16\"", title);
    let made = format!("{processor}, {date}; medians of {} runs", runs.len());
    drawing.text((LEFT, 46.0), "start", "fill=\"#444\"", &made);
    drawing.legend(72.0);
    let middle = up.start - up.length() / 2.0;
    let upright = format!("transform=\"rotate(-90 22 {middle:.1})\"");
    drawing.text((22.0, middle), "middle", &upright, "time of one call");
    for (panel, across) in panels.iter().zip(&across) {
        drawing.panel(panel, across, &up);
    }
    drawing.put("</svg>");
    drawing.out
}
