//! The weekday of a date, request 6: "1 Sunday to 7 Saturday; 1 January 2000
//! gives 7". By Zeller's congruence, which needs neither a table nor the days
//! since some first date.

use super::Date;
use crate::numbers::{Number, NO_SUCH_DATE};

const DAYS_OF_WEEK: u16 = 7;
const MONTHS_OF_YEAR: u16 = 12;
const YEARS_OF_CENTURY: u16 = 100;
const MARCH: u16 = 3;
/// Zeller's remainder for a Saturday is 0; Sunday's is 1, Friday's 6.
const SATURDAY: u8 = 7;

/// The weekday of a date.
pub fn weekday(date: Date) -> Result<u8, Number> {
    if !date.exists() {
        return Err(NO_SUCH_DATE);
    }
    Ok(weekday_of(date))
}

/// The weekday of a date that exists.
fn weekday_of(date: Date) -> u8 {
    match remainder(date) {
        0 => SATURDAY,
        other => other,
    }
}

/// Zeller's remainder, 0 for Saturday to 6 for Friday. A year runs from March,
/// the third month, to February, the fourteenth, so that 29 February is its
/// last day; years are told as century and year of the century.
fn remainder(date: Date) -> u8 {
    let (year, month) = from_march(date);
    let century = year / YEARS_OF_CENTURY;
    let rest = year % YEARS_OF_CENTURY;
    let months = 13 * (month + 1) / 5;
    let sum = u16::from(date.day) + months + rest + rest / 4 + century / 4 + 5 * century;
    (sum % DAYS_OF_WEEK) as u8
}

/// Year and month, January and February being the thirteenth and the fourteenth
/// month of the year before.
fn from_march(date: Date) -> (u16, u16) {
    let month = u16::from(date.month);
    if month < MARCH {
        (date.year - 1, month + MONTHS_OF_YEAR)
    } else {
        (date.year, month)
    }
}
