//! Times as text: of the wall clock where they are milliseconds since 1970, else minutes and seconds.

const SECOND: u64 = 1000;
const MINUTE: u64 = 60 * SECOND;
const HOUR: u64 = 60 * MINUTE;
const DAY: u64 = 24 * HOUR;
/// Later than this a time is one of the wall clock: in 1973.
const WALL: u64 = 100_000_000_000;
/// The steps of an axis.
const STEPS: [u64; 12] = [
    SECOND,
    5 * SECOND,
    10 * SECOND,
    30 * SECOND,
    MINUTE,
    2 * MINUTE,
    5 * MINUTE,
    10 * MINUTE,
    30 * MINUTE,
    HOUR,
    6 * HOUR,
    DAY,
];
const MOST_MARKS: u64 = 10;

/// A moment: '14:05:09.250' (UTC) of the wall clock, else '5:09.250'.
pub fn clock(time: u64) -> String {
    let (seconds, milliseconds) = (time % MINUTE / SECOND, time % SECOND);
    if time < WALL {
        return format!("{}:{seconds:02}.{milliseconds:03}", time / MINUTE);
    }
    let (hours, minutes) = (time % DAY / HOUR, time % HOUR / MINUTE);
    format!("{hours:02}:{minutes:02}:{seconds:02}.{milliseconds:03}")
}

/// How long something took.
pub fn duration(time: u64) -> String {
    if time < MINUTE {
        return format!("{}.{:03} s", time / SECOND, time % SECOND);
    }
    format!("{} min {} s", time / MINUTE, time % MINUTE / SECOND)
}

/// The marks of an axis: at most ten, at whole steps.
pub fn marks_on_axis(first: u64, last: u64) -> Vec<u64> {
    let fits = |step: &&u64| (last - first) / **step < MOST_MARKS;
    let step = *STEPS
        .iter()
        .find(fits)
        .unwrap_or(&((last - first) / MOST_MARKS).max(1));
    let begin = first.div_ceil(step);
    (begin..=last / step).map(|n| n * step).collect()
}

#[cfg(test)]
mod tests {
    use super::*;

    #[test]
    fn moments() {
        assert_eq!(clock(0), "0:00.000");
        assert_eq!(clock(309_250), "5:09.250");
        assert_eq!(clock(1_794_778_443_425), "21:34:03.425");
        assert_eq!(duration(989), "0.989 s");
        assert_eq!(duration(61_500), "1 min 1 s");
    }

    #[test]
    fn an_axis_has_few_marks() {
        assert_eq!(marks_on_axis(500, 3200), [1000, 2000, 3000]);
        for whole in [1, 999, 61_000, 3_600_000, 86_400_000, 10 * DAY, 1000 * DAY] {
            let marks = marks_on_axis(7, 7 + whole);
            assert!(marks.len() as u64 <= MOST_MARKS + 1, "{whole}");
        }
        assert_eq!(marks_on_axis(5, 5), []);
    }
}
