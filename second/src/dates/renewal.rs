//! A permit's renewal date, request 6: "same day of the month as the first
//! date, or that month's last day if it is shorter". The months are gone
//! through one by one, as with a finger on a wall calendar, so that going back
//! over a year's beginning needs no division.

use super::{month_length, Date};
use crate::numbers::{Number, NO_SUCH_DATE, RESULT_OUTSIDE, WRONG_COUNT};

/// Request 6: "Counts run from -1,199 to 1,199."
pub const LEAST_COUNT: i16 = -1_199;
pub const MOST_COUNT: i16 = 1_199;

const JANUARY: u8 = 1;
const DECEMBER: u8 = 12;

/// The renewal date so many months after the first date, or before it where the
/// count is below 0. Request 6: "30 for a date that does not exist, 31 for a count
/// outside its range, 32 for a result outside 2000 to 2099, in that order".
pub fn renewal(first: Date, count: i16) -> Result<Date, Number> {
    if !first.exists() {
        return Err(NO_SUCH_DATE);
    }
    if !(LEAST_COUNT..=MOST_COUNT).contains(&count) {
        return Err(WRONG_COUNT);
    }
    let Month { year, month } = Month::of(first).moved(count);
    let Some(last) = month_length(year, month) else {
        return Err(RESULT_OUTSIDE);
    };
    let day = first.day.min(last);
    Ok(Date { year, month, day })
}

/// A month of a year, which may lie before 2000 or after 2099.
#[derive(Clone, Copy)]
struct Month {
    year: u16,
    month: u8,
}

impl Month {
    fn of(date: Date) -> Month {
        let Date { year, month, .. } = date;
        Month { year, month }
    }

    /// The month so many months later, or earlier where the count is below 0.
    fn moved(self, count: i16) -> Month {
        let step = if count < 0 {
            Month::before
        } else {
            Month::after
        };
        (0..count.unsigned_abs()).fold(self, |month, _| step(month))
    }

    /// The next month. No count leads to a year beyond a `u16`.
    fn after(self) -> Month {
        match self.month {
            DECEMBER => Month {
                year: self.year + 1,
                month: JANUARY,
            },
            month => Month {
                month: month + 1,
                ..self
            },
        }
    }

    /// The month before. No count leads to a year below 0.
    fn before(self) -> Month {
        match self.month {
            JANUARY => Month {
                year: self.year - 1,
                month: DECEMBER,
            },
            month => Month {
                month: month - 1,
                ..self
            },
        }
    }
}
