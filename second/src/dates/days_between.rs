//! The days between two dates, request 6: "negative when the second is
//! earlier". Each date has a day number by a closed formula, and the days are
//! the difference of the two.

use super::Date;
use crate::numbers::{Number, NO_SUCH_DATE};

const DAYS_OF_YEAR: i32 = 365;
/// Request 1: "29 February in each year divisible by four".
const YEARS_TO_LEAP_DAY: i32 = 4;
const MONTHS_OF_YEAR: i32 = 12;
const MARCH: i32 = 3;
/// From March on, five months in a row have 153 days: 31, 30, 31, 30, 31, and
/// so again from August; January begins the third row, in which February,
/// being the last, is cut short by the year's end.
const DAYS_OF_FIVE_MONTHS: i32 = 153;

/// The days from the first date to the second; either may not exist.
pub fn days_between(first: Date, second: Date) -> Result<i32, Number> {
    if !first.exists() || !second.exists() {
        return Err(NO_SUCH_DATE);
    }
    Ok(day_number(second) - day_number(first))
}

/// The number of a date that exists: each day's is one more than that of the
/// day before. A year runs from 1 March to the end of February, so that a leap
/// day is the last day of such a year and comes before every year divisible by
/// four.
fn day_number(date: Date) -> i32 {
    let month = i32::from(date.month);
    let is_from_march = month >= MARCH;
    let year = i32::from(date.year) - i32::from(!is_from_march);
    let months_since_march = if is_from_march {
        month - MARCH
    } else {
        month + MONTHS_OF_YEAR - MARCH
    };
    days_before_year(year) + days_before_month(months_since_march) + i32::from(date.day)
}

/// The days before 1 March of a year.
fn days_before_year(year: i32) -> i32 {
    DAYS_OF_YEAR * year + year / YEARS_TO_LEAP_DAY
}

/// The days from 1 March to the first of the month so many months later: each
/// fifth of the row of five, rounded so that 31 and 30 days alternate.
fn days_before_month(months_since_march: i32) -> i32 {
    (DAYS_OF_FIVE_MONTHS * months_since_march + 2) / 5
}
