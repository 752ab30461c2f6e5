//! The picture: one page with a row for each name, a bar for each time that it was held, in the device's colour, and marks; it needs nothing but a browser.

use std::fmt::Write;

use super::moments::{clock, duration, marks_on_axis};
use super::spans::{Event, Mark, Row, Span, Timeline};

const WIDTH: f64 = 1100.0;
const LEFT: f64 = 260.0;
const ROW: f64 = 46.0;
const BAR: f64 = 22.0;
const TOP: f64 = 34.0;
/// Colours that those who see few of them tell apart as well (Okabe and Ito); further devices begin anew, with stripes.
const COLOURS: [&str; 7] = [
    "#0072b2", "#e69f00", "#009e73", "#cc79a7", "#56b4e9", "#d55e00", "#999933",
];

const STYLE: &str = "body{font:14px sans-serif;margin:24px;color:#222}svg{border:1px solid #ccc}table{border-collapse:collapse;margin-top:16px}\
td,th{border:1px solid #ccc;padding:3px 9px;text-align:left}.two{fill:#c00}.axis{stroke:#ddd}text{font:12px sans-serif}";

struct Scale {
    first: u64,
    last: u64,
}

impl Scale {
    fn x(&self, time: u64) -> f64 {
        let whole = (self.last - self.first).max(1) as f64;
        LEFT + (time - self.first) as f64 / whole * (WIDTH - LEFT - 16.0)
    }
}

/// The page as a whole.
pub fn page(timeline: &Timeline) -> String {
    let (first, last) = timeline.bounds().unwrap_or((0, 0));
    let scale = Scale { first, last };
    let devices = timeline.devices();
    let height = TOP + ROW * timeline.rows.len() as f64 + 8.0;
    let mut page = format!(
        "<!DOCTYPE html>\n<html lang=\"en\"><head><meta charset=\"utf-8\"><title>Who held which name</title><style>{STYLE}</style></head><body>\n<h1>Who held which name</h1>\n<p>{} to {}</p>\n{}\n<svg width=\"{WIDTH}\" height=\"{height}\" role=\"img\">\n",
        clock(first),
        clock(last),
        legend(&devices),
    );
    for time in marks_on_axis(first, last) {
        let x = scale.x(time);
        put(&mut page, format_args!("<line class=\"axis\" x1=\"{x:.1}\" x2=\"{x:.1}\" y1=\"{TOP}\" y2=\"{height}\"/><text x=\"{x:.1}\" y=\"20\" text-anchor=\"middle\">{}</text>\n", clock(time)));
    }
    for (n, (name, row)) in timeline.rows.iter().enumerate() {
        put_row(&mut page, &scale, &devices, TOP + ROW * n as f64, name, row);
    }
    page.push_str("</svg>\n");
    page.push_str(&table(timeline));
    page.push_str("</body></html>\n");
    page
}

fn put(page: &mut String, text: std::fmt::Arguments) {
    page.write_fmt(text).expect("a string takes all");
}

fn colour(devices: &[&str], device: &str) -> &'static str {
    let index = devices.iter().position(|known| *known == device);
    COLOURS[index.unwrap_or(0) % COLOURS.len()]
}

fn legend(devices: &[&str]) -> String {
    let mut legend = String::from("<p>");
    for device in devices {
        let colour = colour(devices, device);
        put(
            &mut legend,
            format_args!(
                "<span style=\"color:{colour}\">&#9632;</span> {} &nbsp; ",
                escaped(device)
            ),
        );
    }
    legend.push_str("<span style=\"color:#c00\">&#9632;</span> two at once &nbsp; &#9650; start &nbsp; &#9670; restart &nbsp; &#10005; lost</p>");
    legend
}

fn put_row(page: &mut String, scale: &Scale, devices: &[&str], y: f64, name: &str, row: &Row) {
    let middle = y + ROW / 2.0;
    put(
        page,
        format_args!(
            "<text x=\"8\" y=\"{:.1}\">{}</text>\n",
            middle + 4.0,
            escaped(name)
        ),
    );
    for span in &row.spans {
        put_span(page, scale, colour(devices, &span.device), middle, span);
    }
    for overlap in row.overlaps() {
        let (x, end) = (scale.x(overlap.from), scale.x(overlap.to));
        put(page, format_args!("<rect class=\"two\" x=\"{x:.1}\" y=\"{:.1}\" width=\"{:.1}\" height=\"5\"><title>{} and {}, {}</title></rect>\n",
            middle - BAR / 2.0 - 6.0, (end - x).max(2.0), escaped(&overlap.devices[0]), escaped(&overlap.devices[1]), duration(overlap.to - overlap.from)));
    }
    for mark in &row.marks {
        put_mark(page, scale, colour(devices, &mark.device), middle, mark);
    }
}

fn put_span(page: &mut String, scale: &Scale, colour: &str, middle: f64, span: &Span) {
    let (x, end) = (scale.x(span.from), scale.x(span.to));
    let fade = if span.is_open {
        " fill-opacity=\"0.75\""
    } else {
        ""
    };
    put(page, format_args!("<rect class=\"held\" x=\"{x:.1}\" y=\"{:.1}\" width=\"{:.1}\" height=\"{BAR}\" fill=\"{colour}\"{fade}><title>{}: {} to {}</title></rect>\n",
        middle - BAR / 2.0, (end - x).max(1.0), escaped(&span.device), clock(span.from), clock(span.to)));
}

fn put_mark(page: &mut String, scale: &Scale, colour: &str, middle: f64, mark: &Mark) {
    let (sign, word) = sign(mark.event);
    put(page, format_args!("<text x=\"{:.1}\" y=\"{:.1}\" text-anchor=\"middle\" fill=\"{colour}\">{sign}<title>{} {word} {}</title></text>\n",
        scale.x(mark.at), middle + BAR / 2.0 + 11.0, escaped(&mark.device), clock(mark.at)));
}

fn sign(event: Event) -> (&'static str, &'static str) {
    match event {
        Event::Started => ("&#9650;", "started"),
        Event::Restarted => ("&#9670;", "restarted"),
        Event::Lost => ("&#10005;", "lost it"),
        Event::Contradicted => ("!", "was recorded otherwise"),
    }
}

fn table(timeline: &Timeline) -> String {
    let mut table = String::from(
        "<table><tr><th>name</th><th>device</th><th>from</th><th>to</th><th>for</th></tr>\n",
    );
    for (name, row) in &timeline.rows {
        for span in &row.spans {
            let open = if span.is_open {
                " (end of the recording)"
            } else {
                ""
            };
            put(
                &mut table,
                format_args!(
                    "<tr><td>{}</td><td>{}</td><td>{}</td><td>{}{open}</td><td>{}</td></tr>\n",
                    escaped(name),
                    escaped(&span.device),
                    clock(span.from),
                    clock(span.to),
                    duration(span.to - span.from)
                ),
            );
        }
    }
    table.push_str("</table>\n");
    table
}

/// Text in a page: no name from a recording becomes a tag.
fn escaped(text: &str) -> String {
    let mut escaped = String::new();
    for character in text.chars() {
        match character {
            '&' => escaped.push_str("&amp;"),
            '<' => escaped.push_str("&lt;"),
            '>' => escaped.push_str("&gt;"),
            '"' => escaped.push_str("&quot;"),
            _ => escaped.push(character),
        }
    }
    escaped
}

#[cfg(test)]
mod tests {
    use super::super::spans::tests::span;
    use super::*;

    #[test]
    fn every_interval_is_in_the_picture_and_in_the_table() {
        let mut timeline = Timeline::default();
        let row = timeline.row("booth<1>");
        row.spans = vec![span("one", 1000, 61_000), span("two", 60_000, 90_000)];
        row.marks.push(Mark {
            at: 61_000,
            device: "one".into(),
            event: Event::Lost,
        });
        let page = page(&timeline);
        assert_eq!(page.matches("class=\"held\"").count(), 2);
        assert_eq!(page.matches("class=\"two\"").count(), 1);
        assert_eq!(page.matches("<tr><td>booth&lt;1&gt;</td>").count(), 2);
        assert!(page.contains("<title>one: 0:01.000 to 1:01.000</title>"));
        assert!(page.contains("one lost it 1:01.000"));
        assert!(!page.contains("booth<1>"));
    }

    #[test]
    fn nothing_at_all_is_a_page_too() {
        assert!(page(&Timeline::default()).contains("<svg"));
    }
}
