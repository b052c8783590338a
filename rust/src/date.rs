//! Times as dates of the calendar.

use std::fmt;

const MILLISECONDS_OF_DAY: i64 = 86_400_000;

/// From 1 March 2000, when a round of 400 years begins, to 1 January 2010, when times begin.
const DAYS_TO_2010: i64 = 3_593;

/// The calendar repeats after 400 years. A century's last day and a fourth year's last day are the 29 February, so that years begin in March here.
const DAYS_OF_400_YEARS: i64 = 146_097;
const DAYS_OF_CENTURY: i64 = 36_524;
const DAYS_OF_4_YEARS: i64 = 1_461;
const DAYS_OF_YEAR: i64 = 365;
const DAYS_FROM_MARCH: [i64; 12] = [31, 30, 31, 30, 31, 31, 30, 31, 30, 31, 31, 29];

/// A time as a date of the calendar, in UTC: what [`crate::Frame::date`] answers. Its text is as `2026-11-15T21:04:05.040Z`.
///
/// Days have 86,400 seconds: leap seconds are not counted. The calendar of today is used for all times.
#[derive(Debug, Clone, Copy, PartialEq, Eq, PartialOrd, Ord, Hash)]
pub struct Date {
    /// The year; 0 is the one before the year 1.
    pub year: i64,
    /// The month, 1 to 12.
    pub month: u8,
    /// The day of the month, 1 to 31.
    pub day: u8,
    /// The hour, 0 to 23.
    pub hour: u8,
    /// The minute, 0 to 59.
    pub minute: u8,
    /// The second, 0 to 59.
    pub second: u8,
    /// The millisecond, 0 to 999.
    pub millisecond: u16,
}

impl Date {
    /// The date of a time in milliseconds since 1 January 2010.
    #[must_use]
    pub fn of(time: i64) -> Date {
        let days = time.div_euclid(MILLISECONDS_OF_DAY) + DAYS_TO_2010;
        let (year, month, day) = calendar(days);
        let milliseconds = time.rem_euclid(MILLISECONDS_OF_DAY);
        Date {
            year,
            month,
            day,
            hour: (milliseconds / 3_600_000) as u8,
            minute: (milliseconds / 60_000 % 60) as u8,
            second: (milliseconds / 1_000 % 60) as u8,
            millisecond: (milliseconds % 1_000) as u16,
        }
    }
}

/// Year, month and day of a number of days since 1 March 2000.
fn calendar(days: i64) -> (i64, u8, u8) {
    let rounds = days.div_euclid(DAYS_OF_400_YEARS);
    let mut day = days.rem_euclid(DAYS_OF_400_YEARS);
    // the last century of a round, and the last of four years, have one day more
    let centuries = (day / DAYS_OF_CENTURY).min(3);
    day -= centuries * DAYS_OF_CENTURY;
    let fours = day / DAYS_OF_4_YEARS;
    day -= fours * DAYS_OF_4_YEARS;
    let years = (day / DAYS_OF_YEAR).min(3);
    day -= years * DAYS_OF_YEAR;
    let mut month = 3;
    for length in DAYS_FROM_MARCH {
        if day < length {
            break;
        }
        day -= length;
        month += 1;
    }
    let year = 2000 + 400 * rounds + 100 * centuries + 4 * fours + years;
    let day = day as u8 + 1;
    if month > 12 {
        return (year + 1, month - 12, day);
    }
    (year, month, day)
}

impl fmt::Display for Date {
    fn fmt(&self, f: &mut fmt::Formatter<'_>) -> fmt::Result {
        let Date { year, month, day, hour, minute, second, millisecond } = *self;
        // a year that has not four digits has a sign
        if (0..=9999).contains(&year) {
            write!(f, "{year:04}")?;
        } else {
            write!(f, "{year:+05}")?;
        }
        write!(f, "-{month:02}-{day:02}T{hour:02}:{minute:02}:{second:02}.{millisecond:03}Z")
    }
}
