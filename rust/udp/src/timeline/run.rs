//! Reads the recordings, and tells.

use std::error::Error;
use std::fs;
use std::io::{self, Write};

use super::moments::{clock, duration};
use super::options::Options;
use super::page::page;
use super::read::add;
use super::spans::{Row, Timeline};
use crate::command::End;

pub fn run(options: &Options) -> Result<End, Box<dyn Error>> {
    let mut timeline = Timeline::default();
    let mut seen: Vec<&str> = Vec::new();
    for source in &options.sources {
        let bytes = fs::read(&source.file).map_err(|error| format!("{}: {error}", source.file))?;
        let is_restart = seen.contains(&&*source.device);
        let torn = add(
            &mut timeline,
            &source.device,
            &bytes,
            source.distance,
            is_restart,
        )
        .map_err(|wrong| format!("{}: {wrong}", source.file))?;
        if let Some(torn) = torn {
            eprintln!("{}: {torn}", source.file);
        }
        seen.push(&source.device);
    }
    timeline.sort();
    if let Some(name) = &options.name {
        timeline
            .rows
            .retain(|known, _| known.eq_ignore_ascii_case(name));
    }
    if let Some(file) = &options.page {
        fs::write(file, page(&timeline)).map_err(|error| format!("{file}: {error}"))?;
    }
    let told: Vec<String> = match options.at {
        Some(at) => holders(&timeline, at),
        None => timeline
            .rows
            .iter()
            .flat_map(|(name, row)| intervals(name, row))
            .collect(),
    };
    for line in &told {
        writeln!(io::stdout(), "{line}")?;
    }
    Ok(if told.is_empty() {
        End::Unmet
    } else {
        End::Stopped
    })
}

fn holders(timeline: &Timeline, at: u64) -> Vec<String> {
    let rows = timeline.rows.iter();
    rows.flat_map(|(name, row)| {
        let holders = row.holders(at);
        holders
            .into_iter()
            .map(move |device| format!("{name}  {device}"))
            .collect::<Vec<_>>()
    })
    .collect()
}

fn intervals(name: &str, row: &Row) -> Vec<String> {
    let mut lines = Vec::new();
    for span in &row.spans {
        let end = if span.is_open { " (end)" } else { "" };
        let (from, to) = (clock(span.from), clock(span.to));
        lines.push(format!(
            "{name}  {}  {from}  {to}{end}  {}",
            span.device,
            duration(span.to - span.from)
        ));
    }
    for overlap in row.overlaps() {
        let [one, other] = &overlap.devices;
        let (from, to) = (clock(overlap.from), clock(overlap.to));
        lines.push(format!(
            "{name}  two at once: {one} and {other}  {from}  {to}  {}",
            duration(overlap.to - overlap.from)
        ));
    }
    lines
}
