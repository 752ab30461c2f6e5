//! Tables of readers: messages by kind and sender, what the peers make of damaged ones, and time against size.

use bench::growth::{self, Family, Point};
use bench::peers::{self, Peer};
use bench::plot::{self, Curve, Legend};
use bench::rows::{self, Cell};
use bench::{captured, packets};

/// The head of a table of readers.
fn reader_head(what: &str, peers: &[Peer]) {
    let mut columns = vec![what, "ratio", "proved", "ordinary"];
    columns.extend(peers.iter().map(|peer| peer.name));
    rows::head(&columns);
}

pub fn readers(peers: &[Peer]) {
    reader_head("reading a message, ns", peers);
    let (times, others) = peers::beside_on_damaged(&packets::mix(), peers);
    rows::row(
        "mix: short announcements, 1,452-byte packets, damaged ones, a third each",
        times,
        &others,
    );
    // a further message is a further line here
    for (name, message) in [
        ("announcement of an address, 38 bytes", packets::address()),
        (
            "announcement of a service: PTR, SRV, TXT, A",
            packets::service(),
        ),
        ("1,452 bytes of PTR records", packets::full()),
        ("the worst legal message, 8,972 bytes", packets::worst()),
    ] {
        let (times, others) = peers::beside(peers::VERDICTS, &[message], peers);
        rows::row(name, times, &others);
    }
    for (sender, name) in captured::SENDERS {
        let captured = captured::of(sender);
        let (times, others) = peers::beside(peers::VERDICTS, &captured, peers);
        rows::row(
            &format!("{} captured messages of {name}", captured.len()),
            times,
            &others,
        );
    }
}

/// Messages taken apart, which is what the peers do.
pub fn apart(peers: &[Peer]) {
    reader_head("taking a message apart, ns", peers);
    for (name, message) in [
        ("announcement of an address, 38 bytes", packets::address()),
        (
            "announcement of a service: PTR, SRV, TXT, A",
            packets::service(),
        ),
        ("1,452 bytes of PTR records", packets::full()),
    ] {
        let (times, others) = peers::beside(peers::APART, &[message], peers);
        rows::row(name, times, &others);
    }
    for (sender, name) in captured::SENDERS {
        let captured = captured::of(sender);
        let (times, others) = peers::beside(peers::APART, &captured, peers);
        rows::row(
            &format!("{} captured messages of {name}", captured.len()),
            times,
            &others,
        );
    }
}

/// On how many packets of the mix a peer says what ours says.
pub fn verdicts(peers: &[Peer]) {
    let mix = packets::mix();
    for peer in peers.iter().filter(|peer| peer.takes_damaged()) {
        let count = |ours: bool, theirs: bool| {
            mix.iter()
                .filter(|packet| bench::reads(packet) == ours && peer.reads(packet) == theirs)
                .count()
        };
        println!(
            "\n{} on the mix of {}: both take {}, both refuse {}, it alone refuses {}, it alone takes {}.",
            peer.name,
            mix.len(),
            count(true, true),
            count(false, false),
            count(true, false),
            count(false, true)
        );
    }
}

/// Time against message size: a table for each family, and the curves.
pub fn growth(peers: &[Peer]) -> Vec<Curve> {
    let mut curves = Vec::new();
    for family in growth::families() {
        reader_head(&format!("{}, bytes", family.name), peers);
        let points = growth::measure(&family, peers);
        for point in &points {
            let times = [point.ours, point.ordinary];
            rows::row(&rows::whole(point.bytes as f64), times, &point.peers);
        }
        curves.extend(family_curves(&family, &points, peers.len()));
    }
    curves
}

fn family_curves(family: &Family, points: &[Point], peers: usize) -> Vec<Curve> {
    let time = |point: &Point, reader: usize| match reader {
        0 => Some(point.ours),
        1 => Some(point.ordinary),
        _ => match point.peers[reader - 2] {
            Cell::Time(time) => Some(time),
            _ => None,
        },
    };
    (0..2 + peers)
        .map(|reader| Curve {
            reader,
            dashed: family.dashed,
            points: points
                .iter()
                .filter_map(|point| Some((point.bytes as f64, time(point, reader)?)))
                .collect(),
        })
        .filter(|curve| !curve.points.is_empty())
        .collect()
}

/// The plot of the curves.
pub fn drawn(curves: &[Curve], peers: &[Peer]) -> String {
    let mut readers = vec!["proved", "ordinary Rust"];
    readers.extend(peers.iter().map(|peer| peer.name));
    let legend = Legend {
        title: "Reading one message: time against size, both logarithmic",
        readers,
        solid: "PTR records",
        dashed: "worst legal message",
    };
    plot::svg(&legend, curves)
}
