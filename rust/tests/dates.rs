//! Times as dates of the calendar.

mod common;

use common::{recorded, WHOLE};
use suljanko::{Date, Recording};

const DAY: i64 = 86_400_000;

fn text(time: i64) -> String {
    Date::of(time).to_string()
}

#[test]
fn the_first_moment_and_its_neighbours() {
    assert_eq!(text(0), "2010-01-01T00:00:00.000Z");
    assert_eq!(text(-1), "2009-12-31T23:59:59.999Z");
    assert_eq!(text(1), "2010-01-01T00:00:00.001Z");
    assert_eq!(text(DAY - 1), "2010-01-01T23:59:59.999Z");
    assert_eq!(text(-DAY), "2009-12-31T00:00:00.000Z");
    assert_eq!(text(3_723_004), "2010-01-01T01:02:03.004Z");
    assert_eq!(text(4_294_967_295), "2010-02-19T17:02:47.295Z");
    assert_eq!(text(528_000_000_000), "2026-09-25T02:40:00.000Z");
    // 1 January 1970
    assert_eq!(text(-1_262_304_000_000), "1970-01-01T00:00:00.000Z");
}

#[test]
fn leap_years() {
    assert_eq!(text(789 * DAY), "2012-02-29T00:00:00.000Z");
    assert_eq!(text(790 * DAY), "2012-03-01T00:00:00.000Z");
    assert_eq!(text(-3_594 * DAY), "2000-02-29T00:00:00.000Z");
    assert_eq!(text(-3_593 * DAY), "2000-03-01T00:00:00.000Z");
    // 1900 and 2100 have none
    assert_eq!(text(-40_119 * DAY), "1900-02-28T00:00:00.000Z");
    assert_eq!(text(-40_118 * DAY), "1900-03-01T00:00:00.000Z");
    assert_eq!(text(32_930 * DAY), "2100-02-28T00:00:00.000Z");
    assert_eq!(text(32_931 * DAY), "2100-03-01T00:00:00.000Z");
}

fn is_leap(year: i64) -> bool {
    year % 4 == 0 && (year % 100 != 0 || year % 400 == 0)
}

fn days_of(year: i64, month: u8) -> u8 {
    match month {
        2 => 28 + u8::from(is_leap(year)),
        4 | 6 | 9 | 11 => 30,
        _ => 31,
    }
}

// More than two rounds of 400 years to each side, day by day.
#[test]
fn each_day_follows_the_day_before() {
    let (mut year, mut month, mut day) = (2010, 1, 1);
    for number in 0..330_000 {
        let date = Date::of(number * DAY + 5);
        assert_eq!((date.year, date.month, date.day, date.millisecond), (year, month, day, 5));
        day += 1;
        if day > days_of(year, month) {
            (month, day) = (month + 1, 1);
        }
        if month > 12 {
            (year, month) = (year + 1, 1);
        }
    }
    assert_eq!(year, 2913);
    let (mut year, mut month, mut day) = (2010, 1, 1);
    for number in 1..900_000 {
        day -= 1;
        if day == 0 {
            month -= 1;
            if month == 0 {
                (year, month) = (year - 1, 12);
            }
            day = days_of(year, month);
        }
        let date = Date::of(-number * DAY);
        assert_eq!((date.year, date.month, date.day, date.hour), (year, month, day, 0));
    }
    assert_eq!(year, -455);
}

#[test]
fn the_limits_of_a_time() {
    assert_eq!(text(i64::MAX), "+292279034-08-18T07:12:55.807Z");
    assert_eq!(text(i64::MIN), "-292275015-05-16T16:47:04.192Z");
    assert_eq!(text(-1_262_304_000_000 - 719_528 * DAY), "0000-01-01T00:00:00.000Z");
    assert_eq!(text(-1_262_304_000_000 - 719_529 * DAY), "-0001-12-31T00:00:00.000Z");
    assert_eq!(text(-1_262_304_000_000 + 2_932_896 * DAY), "9999-12-31T00:00:00.000Z");
    assert_eq!(text(-1_262_304_000_000 + 2_932_897 * DAY), "+10000-01-01T00:00:00.000Z");
}

#[test]
fn dates_have_the_order_of_times() {
    let times = [i64::MIN, -DAY, -1, 0, 1, 999, 1000, 59_999, 60_000, DAY, 365 * DAY, i64::MAX];
    for pair in times.windows(2) {
        assert!(Date::of(pair[0]) < Date::of(pair[1]), "{pair:?}");
    }
}

#[test]
fn a_frame_has_one() {
    let recording = Recording::open(&WHOLE).unwrap();
    assert_eq!(recording.frame(0).unwrap().date().to_string(), "2010-01-01T00:00:01.000Z");
    let file = recorded(&[("A", b"")], &[], &[(i64::MIN, 0, vec![b""])]);
    assert_eq!(Recording::open(&file).unwrap().frame(0).unwrap().date().year, -292_275_015);
}
