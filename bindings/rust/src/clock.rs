//! The clock of a call.

/// The clock of a send or a search.
///
/// ```
/// use jezynar::Clock;
///
/// let clock = Clock::from_unix(1_790_812_861.5);
/// assert_eq!(clock, Some(Clock { secs: 1_790_812_861.5, year: 2026, month: 10, day: 1, hour: 0, minute: 1 }));
/// ```
#[derive(Clone, Copy, Debug, PartialEq)]
pub struct Clock {
    /// The seconds of the instant, on the same scale as the origin of the opening; any value.
    pub secs: f64,
    /// The year, 1970 to 9999.
    pub year: u32,
    /// The month, 1 to 12.
    pub month: u32,
    /// The day, 1 to 31.
    pub day: u32,
    /// The hour, 0 to 23.
    pub hour: u32,
    /// The minute, 0 to 59.
    pub minute: u32,
}

/// The seconds from 1970-01-01 to the end of 9999-12-31.
const END: f64 = 253_402_300_800.0;
const DAY: u64 = 86_400;

impl Clock {
    /// The clock at so many seconds after 1970-01-01 00:00:00 UTC, fractions included: its date and time are UTC, its
    /// `secs` are those given. There is one from 1970-01-01 00:00:00 to the end of 9999-12-31, else `None`.
    pub fn from_unix(secs: f64) -> Option<Self> {
        if !(0.0..END).contains(&secs) {
            return None;
        }
        // In range, so that nothing is lost but the fraction.
        let whole = secs as u64;
        let (year, month, day) = date((whole / DAY) as u32);
        let minutes = (whole % DAY / 60) as u32;
        Some(Clock { secs, year, month, day, hour: minutes / 60, minute: minutes % 60 })
    }
}

/// The year, month and day so many days after 1970-01-01, at most those to 9999-12-31.
///
/// Years are counted from 1 March, so that a leap day is the last day of its year. 400 years have the same number of
/// days wherever they begin; of the four times 100 years in them the last has a day more, and so has the last of four
/// years, where it is whole.
#[allow(clippy::arithmetic_side_effects)] // Days are below 2,932,897, and no difference is below 0.
fn date(days: u32) -> (u32, u32, u32) {
    const YEARS_400: u32 = 146_097;
    const YEARS_100: u32 = 36_524;
    const YEARS_4: u32 = 1_461;
    // From 0000-03-01 to 1970-01-01.
    let days = days + 719_468;
    let (span_400, days) = (days / YEARS_400, days % YEARS_400);
    let span_100 = (days / YEARS_100).min(3);
    let days = days - span_100 * YEARS_100;
    let (span_4, days) = (days / YEARS_4, days % YEARS_4);
    let span_1 = (days / 365).min(3);
    let days = days - span_1 * 365;
    let year = span_400 * 400 + span_100 * 100 + span_4 * 4 + span_1;
    // From March on, five months have 153 days, in the order 31 30 31 30 31.
    let month = (days * 5 + 2) / 153;
    let day = days - (month * 153 + 2) / 5 + 1;
    // January and February are months 10 and 11 of the year before.
    if month < 10 {
        (year, month + 3, day)
    } else {
        (year + 1, month - 9, day)
    }
}
