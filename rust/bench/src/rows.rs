//! Tables of times, printed as Markdown.

/// What a reader makes of the packets of a row.
#[derive(Clone, Copy)]
pub enum Cell {
    /// Nanoseconds a packet.
    Time(f64),
    /// It refuses one that we take.
    Refuses,
    /// It is not tried on these.
    Untried,
}

impl Cell {
    fn text(self) -> String {
        match self {
            Cell::Time(time) => number(time),
            Cell::Refuses => "refuses".into(),
            Cell::Untried => "–".into(),
        }
    }
}

/// A table's head and its columns' rules: the first column is words, the others are numbers.
pub fn head(columns: &[&str]) {
    println!("\n| {} |", columns.join(" | "));
    println!("|---|{}", "--:|".repeat(columns.len() - 1));
}

/// A row: the ratio of the first two times, then all times.
pub fn row(name: &str, [ours, ordinary]: [f64; 2], others: &[Cell]) {
    let others: String = others
        .iter()
        .map(|cell| format!(" {} |", cell.text()))
        .collect();
    println!(
        "| {name} | {:.2} | {} | {} |{others}",
        ours / ordinary,
        number(ours),
        number(ordinary)
    );
}

/// A row of ours beside two others: the ratio to each, then all times.
pub fn row_of_three(name: &str, [ours, a, b]: [f64; 3]) {
    println!(
        "| {name} | {:.2} | {:.2} | {} | {} | {} |",
        ours / a,
        ours / b,
        number(ours),
        number(a),
        number(b)
    );
}

/// Nanoseconds, with a tenth below 100.
pub fn number(time: f64) -> String {
    if time < 100.0 {
        return format!("{time:.1}");
    }
    whole(time)
}

/// A whole number, thousands set apart.
pub fn whole(number: f64) -> String {
    let digits = format!("{number:.0}");
    let mut out = String::new();
    for (i, digit) in digits.chars().enumerate() {
        if i > 0 && (digits.len() - i) % 3 == 0 {
            out.push(',');
        }
        out.push(digit);
    }
    out
}
