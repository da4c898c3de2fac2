//! Days and dates of a term (Ask 8 of document 02): "Day 0 is 1998-01-01 and day
//! 36,524 is 2097-12-31, Gregorian." No formula is used: the calendar is gone
//! through day by day from day 0 on, and what a call asks is looked up in it.

use std::sync::OnceLock;

/// The days from 1998-01-01 up to, and with, 2097-12-31.
pub const DAYS: usize = 36_525;
/// "a count of months from 1 to 120"
pub const MOST_MONTHS: u32 = 120;

/// Dates are in the order of their days.
#[derive(Clone, Copy, PartialEq, Eq, PartialOrd, Ord, Debug)]
pub struct Date {
    pub year: u32,
    pub month: u32,
    pub day: u32,
}

/// "Day 0 is 1998-01-01".
pub const DAY_0: Date = Date { year: 1998, month: 1, day: 1 };
/// The calendar ends with the month that lies the most months after the last date
/// that a call may name: December 2097 and 120 months.
const LAST_YEAR: u32 = 2107;

impl Date {
    pub fn new(year: u32, month: u32, day: u32) -> Date {
        Date { year, month, day }
    }

    fn tomorrow(self) -> Date {
        let Date { year, month, day } = self;
        if day < days_of_month(year, month) {
            Date { day: day + 1, ..self }
        } else {
            let (year, month) = month_after(year, month);
            Date { year, month, day: 1 }
        }
    }
}

/// "Gregorian": every fourth year is a leap year, of the hundreds every fourth.
fn is_leap(year: u32) -> bool {
    year % 4 == 0 && (year % 100 != 0 || year % 400 == 0)
}

fn days_of_month(year: u32, month: u32) -> u32 {
    match month {
        4 | 6 | 9 | 11 => 30,
        2 if is_leap(year) => 29,
        2 => 28,
        _ => 31,
    }
}

/// After December comes January of the next year.
fn month_after(year: u32, month: u32) -> (u32, u32) {
    if month < 12 {
        (year, month + 1)
    } else {
        (year + 1, 1)
    }
}

/// All dates from day 0 on; the place of a date is its day number. They run on past
/// 2097, so that an end can be found before it is cut.
fn calendar() -> &'static [Date] {
    static CALENDAR: OnceLock<Vec<Date>> = OnceLock::new();
    CALENDAR.get_or_init(|| {
        let mut dates = vec![DAY_0];
        let mut date = DAY_0.tomorrow();
        while date.year <= LAST_YEAR {
            dates.push(date);
            date = date.tomorrow();
        }
        dates
    })
}

/// The place of a date in the calendar; none for one that does not exist.
fn place(date: Date) -> Option<usize> {
    calendar().binary_search(&date).ok()
}

/// The day number of a date; none for "a date that does not exist or lies outside
/// these years".
pub fn day_number(date: Date) -> Option<usize> {
    place(date).filter(|day| *day < DAYS)
}

/// The date of a day number below 36,525.
pub fn date_of(day: usize) -> Date {
    assert!(day < DAYS, "the day has a date in these years");
    calendar()[day]
}

/// The end of a term as it is before it is cut. "the end is the same day of the later
/// month, or that month's last day if it has no such day". The date exists and lies in
/// these years; the months are 1 to 120.
pub fn end_uncut(date: Date, months: u32) -> usize {
    let (mut year, mut month) = (date.year, date.month);
    for _ in 0..months {
        (year, month) = month_after(year, month);
    }
    let same_day = Date { year, month, ..date };
    place(same_day).unwrap_or_else(|| {
        // The first date after the one that is missing is a first of a month; the last
        // day of the later month stands before it.
        calendar().partition_point(|other| *other < same_day) - 1
    })
}

/// The end of a term: "a later end is cut to 36,525".
pub fn end_day(date: Date, months: u32) -> usize {
    end_uncut(date, months).min(DAYS)
}

#[cfg(test)]
mod tests {
    use super::*;

    #[test]
    fn the_calendar_has_the_days_that_the_paper_says() {
        assert_eq!(calendar()[0], Date::new(1998, 1, 1));
        assert_eq!(calendar()[DAYS - 1], Date::new(2097, 12, 31));
        assert_eq!(calendar()[DAYS], Date::new(2098, 1, 1));
        assert_eq!(*calendar().last().unwrap(), Date::new(2107, 12, 31));
        assert!(calendar().windows(2).all(|days| days[0] < days[1]));
        // 2000 is a leap year, 2100 is none.
        assert!(place(Date::new(2000, 2, 29)).is_some());
        assert!(place(Date::new(2100, 2, 29)).is_none());
    }
}
