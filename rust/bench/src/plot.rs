//! A plot of time against message size as SVG, both axes logarithmic. Its colours stand out on white and on black, and it has no ground of its own.

use std::fmt::Write;

const WIDTH: f64 = 900.0;
const HEIGHT: f64 = 560.0;
const LEFT: f64 = 70.0;
const RIGHT: f64 = 690.0;
const TOP: f64 = 46.0;
const BOTTOM: f64 = 500.0;

const BYTES: [f64; 2] = [30.0, 12_000.0];
const BYTE_TICKS: [f64; 8] = [
    38.0, 100.0, 200.0, 500.0, 1_000.0, 2_000.0, 5_000.0, 8_972.0,
];

const COLOURS: [&str; 5] = ["#2f81f7", "#e0823d", "#2da44e", "#a371f7", "#d6409f"];

const STYLE: &str = "text { font: 14px system-ui, sans-serif; fill: #6e7781; } .title { font-size: 16px; font-weight: 600; } .grid { stroke: #8c959f; \
stroke-opacity: .3; } .axis { stroke: #8c959f; } @media (prefers-color-scheme: dark) { text { fill: #adbac7; } }";

/// A curve: of whom, on which messages, and its points by size and nanoseconds.
pub struct Curve {
    pub reader: usize,
    pub dashed: bool,
    pub points: Vec<(f64, f64)>,
}

/// What the curves are of: the readers by their colours, the messages by their strokes.
pub struct Legend<'a> {
    pub title: &'a str,
    pub readers: Vec<&'a str>,
    pub solid: &'a str,
    pub dashed: &'a str,
}

struct Scale {
    /// The powers of ten that the axis of times goes from and to.
    decades: [i32; 2],
}

impl Scale {
    /// The decades that hold all times.
    fn of(curves: &[Curve]) -> Scale {
        let times = || {
            curves
                .iter()
                .flat_map(|curve| &curve.points)
                .map(|p| p.1.log10())
        };
        let least = times().fold(f64::MAX, f64::min);
        let most = times().fold(f64::MIN, f64::max);
        Scale {
            decades: [least.floor() as i32, most.ceil() as i32],
        }
    }

    fn x(&self, bytes: f64) -> f64 {
        LEFT + (RIGHT - LEFT) * (bytes / BYTES[0]).ln() / (BYTES[1] / BYTES[0]).ln()
    }

    fn y(&self, time: f64) -> f64 {
        let [low, high] = self.decades.map(f64::from);
        BOTTOM - (BOTTOM - TOP) * (time.log10() - low) / (high - low)
    }
}

/// The whole picture.
pub fn svg(legend: &Legend, curves: &[Curve]) -> String {
    let scale = Scale::of(curves);
    let mut out = format!(
        "<svg xmlns=\"http://www.w3.org/2000/svg\" viewBox=\"0 0 {WIDTH} {HEIGHT}\" role=\"img\" aria-label=\"{}\">\n<style>{STYLE}</style>\n",
        legend.title
    );
    text(&mut out, LEFT, 24.0, "start\" class=\"title", legend.title);
    axes(&mut out, &scale);
    for curve in curves {
        draw(&mut out, &scale, curve);
    }
    key(&mut out, legend);
    out.push_str("</svg>\n");
    out
}

fn text(out: &mut String, x: f64, y: f64, anchor: &str, text: &str) {
    writeln!(
        out,
        "<text x=\"{x:.0}\" y=\"{y:.0}\" text-anchor=\"{anchor}\">{text}</text>"
    )
    .expect("a string");
}

fn line(out: &mut String, class: &str, from: (f64, f64), to: (f64, f64)) {
    let ((x1, y1), (x2, y2)) = (from, to);
    writeln!(
        out,
        "<line class=\"{class}\" x1=\"{x1:.1}\" y1=\"{y1:.1}\" x2=\"{x2:.1}\" y2=\"{y2:.1}\"/>"
    )
    .expect("a string");
}

fn axes(out: &mut String, scale: &Scale) {
    for decade in scale.decades[0]..=scale.decades[1] {
        let y = scale.y(10f64.powi(decade));
        line(out, "grid", (LEFT, y), (RIGHT, y));
        text(out, LEFT - 8.0, y + 5.0, "end", &duration(decade));
    }
    for bytes in BYTE_TICKS {
        let x = scale.x(bytes);
        line(out, "grid", (x, TOP), (x, BOTTOM));
        text(out, x, BOTTOM + 20.0, "middle", &crate::rows::whole(bytes));
    }
    line(out, "axis", (LEFT, BOTTOM), (RIGHT, BOTTOM));
    line(out, "axis", (LEFT, TOP), (LEFT, BOTTOM));
    text(
        out,
        (LEFT + RIGHT) / 2.0,
        BOTTOM + 44.0,
        "middle",
        "bytes of the message",
    );
}

/// A power of ten of nanoseconds.
fn duration(decade: i32) -> String {
    let unit = ["ns", "µs", "ms", "s"][(decade / 3).clamp(0, 3) as usize];
    format!("{} {unit}", 10i32.pow((decade % 3).max(0) as u32))
}

fn draw(out: &mut String, scale: &Scale, curve: &Curve) {
    let colour = COLOURS[curve.reader];
    let points: Vec<_> = curve
        .points
        .iter()
        .map(|(bytes, time)| (scale.x(*bytes), scale.y(*time)))
        .collect();
    let path: String = points
        .iter()
        .map(|(x, y)| format!("{x:.1},{y:.1} "))
        .collect();
    let dash = if curve.dashed {
        " stroke-dasharray=\"7 5\""
    } else {
        ""
    };
    writeln!(
        out,
        "<polyline fill=\"none\" stroke=\"{colour}\" stroke-width=\"2\"{dash} points=\"{}\"/>",
        path.trim_end()
    )
    .expect("a string");
    for (x, y) in points {
        writeln!(
            out,
            "<circle cx=\"{x:.1}\" cy=\"{y:.1}\" r=\"3\" fill=\"{colour}\"/>"
        )
        .expect("a string");
    }
}

/// The key at the right: readers by colour, messages by stroke.
fn key(out: &mut String, legend: &Legend) {
    let x = RIGHT + 22.0;
    let mut y = TOP + 14.0;
    for (reader, name) in legend.readers.iter().enumerate() {
        writeln!(
            out,
            "<rect x=\"{x:.0}\" y=\"{:.0}\" width=\"26\" height=\"4\" fill=\"{}\"/>",
            y - 7.0,
            COLOURS[reader]
        )
        .expect("a string");
        text(out, x + 34.0, y, "start", name);
        y += 24.0;
    }
    y += 16.0;
    for (name, dash) in [
        (legend.solid, ""),
        (legend.dashed, "\" stroke-dasharray=\"7 5"),
    ] {
        line(
            out,
            &format!("axis\" stroke-width=\"2{dash}"),
            (x, y - 5.0),
            (x + 26.0, y - 5.0),
        );
        text(out, x + 34.0, y, "start", name);
        y += 24.0;
    }
}
