//! Dates: "true month lengths, years being 2000 to 2099, with 29 February in
//! each year divisible by four". Years stand here in full.

pub mod days_between;
pub mod renewal;
pub mod weekday;

/// "years being 2000 to 2099".
pub const FIRST_YEAR: u16 = 2_000;
pub const LAST_YEAR: u16 = 2_099;

/// A date as a call gets or gives it, whether or not it exists. An earlier date
/// is the lesser one.
#[derive(Clone, Copy, Debug, Default, PartialEq, Eq, PartialOrd, Ord)]
pub struct Date {
    pub year: u16,
    pub month: u8,
    pub day: u8,
}

impl Date {
    /// Whether there is such a date.
    pub fn exists(self) -> bool {
        exists(self.year, self.month, self.day)
    }
}

/// Whether there is such a date.
pub fn exists(year: u16, month: u8, day: u8) -> bool {
    match month_length(year, month) {
        Some(length) => (1..=length).contains(&day),
        None => false,
    }
}

/// The days of a month; none where there is no such year or month.
pub fn month_length(year: u16, month: u8) -> Option<u8> {
    if !(FIRST_YEAR..=LAST_YEAR).contains(&year) {
        return None;
    }
    match month {
        2 if has_leap_day(year) => Some(29),
        2 => Some(28),
        4 | 6 | 9 | 11 => Some(30),
        1 | 3 | 5 | 7 | 8 | 10 | 12 => Some(31),
        _ => None,
    }
}

/// "29 February in each year divisible by four". No year from 2000 to 2099 is
/// one of the centuries that the calendar leaves out.
fn has_leap_day(year: u16) -> bool {
    year.is_multiple_of(4)
}
