//! The clock of Unix seconds, against a calendar that goes from day to day.
use jezynar::{Clock, Segment};

const DAY: u64 = 86_400;
/// 9999-12-31 23:59:59.
const LAST: u64 = 253_402_300_799;

fn fields(secs: f64) -> Option<(u32, u32, u32, u32, u32)> {
    Clock::from_unix(secs).map(|c| (c.year, c.month, c.day, c.hour, c.minute))
}

/// How many days a month has: the rule of the leap year as the calendar states it.
fn length(year: u32, month: u32) -> u32 {
    match month {
        4 | 6 | 9 | 11 => 30,
        2 if year % 400 == 0 => 29,
        2 if year % 100 == 0 => 28,
        2 if year % 4 == 0 => 29,
        2 => 28,
        _ => 31,
    }
}

#[test]
fn every_day_from_1970_to_9999() {
    let (mut year, mut month, mut day) = (1970, 1, 1);
    let mut midnight = 0;
    while year < 10_000 {
        for (second, hour, minute) in [(0, 0, 0), (59, 0, 0), (60, 0, 1), (45_296, 12, 34), (DAY - 1, 23, 59)] {
            let secs = (midnight + second) as f64;
            assert_eq!(Clock::from_unix(secs), Some(Clock { secs, year, month, day, hour, minute }));
        }
        midnight += DAY;
        day += 1;
        if day > length(year, month) {
            (month, day) = (month + 1, 1);
        }
        if month > 12 {
            (year, month) = (year + 1, 1);
        }
    }
    assert_eq!(midnight, LAST + 1);
}

/// Every second of the first and the last day, and of days round leap days.
#[test]
fn every_second_of_some_days() {
    for midnight in [0, 951_782_400, 4_107_456_000, 13_574_563_200, LAST + 1 - DAY] {
        let date = fields(midnight as f64).unwrap();
        let mut second = midnight;
        for hour in 0..24 {
            for minute in 0..60 {
                for _ in 0..60 {
                    assert_eq!(fields(second as f64), Some((date.0, date.1, date.2, hour, minute)));
                    second += 1;
                }
            }
        }
        assert_eq!(second, midnight + DAY);
    }
}

#[test]
fn known_instants() {
    for (secs, want) in [
        (0, (1970, 1, 1, 0, 0)),
        (68_169_599, (1972, 2, 28, 23, 59)),
        (68_169_600, (1972, 2, 29, 0, 0)),
        (946_684_799, (1999, 12, 31, 23, 59)),
        (951_782_400, (2000, 2, 29, 0, 0)),
        (951_868_800, (2000, 3, 1, 0, 0)),
        (1_000_000_000, (2001, 9, 9, 1, 46)),
        (1_234_567_890, (2009, 2, 13, 23, 31)),
        (1_790_812_800, (2026, 10, 1, 0, 0)),
        (2_147_483_647, (2038, 1, 19, 3, 14)),
        (4_107_455_999, (2100, 2, 27, 23, 59)),
        (4_107_542_399, (2100, 2, 28, 23, 59)),
        (4_107_542_400, (2100, 3, 1, 0, 0)),
        (4_294_967_296, (2106, 2, 7, 6, 28)),
        (13_574_563_200, (2400, 2, 29, 0, 0)),
        (253_402_214_400, (9999, 12, 31, 0, 0)),
        (LAST, (9999, 12, 31, 23, 59)),
    ] {
        assert_eq!(fields(secs as f64), Some(want), "{secs}");
    }
}

#[test]
fn fractions_are_kept_and_change_no_field() {
    for (secs, like) in
        [(0.999, 0.0), (59.5, 59.0), (1_790_812_799.75, 1_790_812_799.0), (LAST as f64 + 0.5, LAST as f64)]
    {
        let clock = Clock::from_unix(secs).unwrap();
        assert_eq!(clock.secs, secs);
        assert_eq!(Some(Clock { secs: like, ..clock }), Clock::from_unix(like));
    }
    assert_eq!(Clock::from_unix(-0.0).map(|c| c.year), Some(1970));
}

#[test]
fn outside_these_years_there_is_none() {
    let end = LAST as f64 + 1.0;
    for secs in [end, end + 0.5, 1.0e300, f64::INFINITY, f64::NEG_INFINITY, f64::NAN, -1.0, -0.5, -f64::MIN_POSITIVE] {
        assert_eq!(Clock::from_unix(secs), None, "{secs}");
    }
    assert!(Clock::from_unix(f64::from_bits(end.to_bits() - 1)).is_some());
}

/// The library takes every such clock.
#[test]
fn the_library_takes_them() {
    let mut segment = Segment::new();
    for k in 0..=100_000 {
        let clock = Clock::from_unix((LAST / 100_000 * k).min(LAST) as f64).unwrap();
        assert_eq!(segment.send(&[], &clock), Ok(1));
    }
    assert_eq!(segment.send(&[], &Clock::from_unix(LAST as f64).unwrap()), Ok(1));
}
