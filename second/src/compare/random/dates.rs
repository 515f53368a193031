//! Dates that exist and dates that do not, and the cases of request 6's three calls.

use super::dice::Dice;
use crate::compare::stream::Case;
use crate::dates::{month_length, Date, FIRST_YEAR, LAST_YEAR};

const FEBRUARY: u8 = 2;
/// February of a leap year, as a thirteenth month: so every length has its share.
const LEAP_FEBRUARY: u8 = 13;
/// Counts at the ends of their range and of two bytes, and around a month and a year.
const COUNTS: [i32; 22] = [
    -32_768, -1_200, -1_199, -1_199, -1_199, -1_199, -24, -13, -12, -11, -1, 0, 1, 11, 12, 13,
    1_199, 1_199, 1_199, 1_199, 1_200, 32_767,
];
/// Months at both ends of 2000 to 2099, numbered from January 2000, and Februaries.
const TARGETS: [i32; 14] = [
    -13, -12, -1, -1, -1, 0, 1, 1_198, 1_199, 1_200, 1_200, 1_200, 13, 49,
];

/// The years outside 2000 to 2099 that a field can tell, and its most month or day.
pub struct Reach(pub &'static [u16], pub u8);

/// The calls' dates: years of two bytes, months and days of one.
const OF_CALLS: Reach = Reach(&[0, FIRST_YEAR - 1, LAST_YEAR + 1, u16::MAX], u8::MAX);

fn date(year: u16, month: u8, day: u8) -> Date {
    Date { year, month, day }
}

/// One of the thirteen months, in a year that has it, often the first or the last.
fn month(dice: &mut Dice, card: u8) -> (u16, u8) {
    let fourth = FIRST_YEAR + 4 * dice.below(25) as u16;
    let other = fourth + dice.between(1, 3) as u16;
    let (first, last) = (FIRST_YEAR, LAST_YEAR);
    match card {
        LEAP_FEBRUARY => (dice.one_of(&[first, last - 3, fourth]), FEBRUARY),
        FEBRUARY => (dice.one_of(&[first + 1, last, other]), FEBRUARY),
        _ => (dice.one_of(&[first, last, fourth, other, other]), card),
    }
}

fn last_day(year: u16, month: u8) -> u8 {
    month_length(year, month).unwrap_or_default()
}

/// A date that exists: of each month in its turn, on its last day in two of three.
pub fn real(dice: &mut Dice, deck: &str) -> Date {
    let cards: Vec<u8> = (0..3 * LEAP_FEBRUARY).collect();
    let card = dice.turn(deck, &cards);
    let (year, month) = month(dice, card / 3 + 1);
    let last = last_day(year, month);
    let any = dice.within("day", 1..=last.into()) as u8;
    date(year, month, if card.is_multiple_of(3) { any } else { last })
}

/// A date that does not exist: the day after the last of each month in its turn, or
/// a day, a month or a year that is none.
pub fn wrong(dice: &mut Dice, deck: &str, Reach(years, most): Reach) -> Date {
    let cards: Vec<usize> = (0..18 + years.len()).collect();
    let card = dice.turn(deck, &cards);
    let (year, month) = month(dice, card as u8 % LEAP_FEBRUARY + 1);
    let last = last_day(year, month);
    match card {
        0..=12 => date(year, month, last + 1),
        13 => date(year, month, 0),
        14 => date(year, month, most),
        15 => date(year, 0, last),
        16 => date(year, 13, last),
        17 => date(year, most, last),
        _ => date(years[card - 18], month, 28),
    }
}

/// A renewal by a count or to a month at an edge: from any date, from the ends of 2000
/// to 2099 and from days that February lacks; and from dates that do not exist.
pub fn renewal_case(dice: &mut Dice) -> Case {
    let sort = dice.sort("renewal: 12 wrong, 11 real, 5 first, 5 last, 3 29, 3 30, 2 31");
    let (year, month) = month(dice, LEAP_FEBRUARY);
    let first = match sort {
        "wrong" => wrong(dice, "wrong renewal", OF_CALLS),
        "real" => real(dice, "renewal"),
        "first" => date(FIRST_YEAR, 1, dice.within("first day", 1..=31) as u8),
        "last" => date(LAST_YEAR, 12, dice.within("last day", 1..=31) as u8),
        day => date(
            year,
            month + u8::from(day != "29"),
            day.parse().unwrap_or(1),
        ),
    };
    let number = 12 * (i32::from(first.year) - 2_000) + i32::from(first.month) - 1;
    let any = dice.below(1_200) as i32;
    let is_to = dice.turn(&format!("to a month, {sort}"), &[true, false, false]);
    let count = match sort {
        "29" | "30" | "31" => dice.turn(sort, &[13, 13, 49, 49, 51, any]) - number,
        _ if is_to => dice.turn(&format!("target, {sort}"), &TARGETS) - number,
        _ => dice.turn(&format!("count, {sort}"), &COUNTS),
    };
    let count = count as i16;
    Case::Renewal { first, count }
}

/// The weekday of a date, which exists in half of the cases.
pub fn weekday_case(dice: &mut Dice) -> Case {
    let date = match dice.turn("weekday", &[true, false]) {
        true => real(dice, "date of a weekday"),
        false => wrong(dice, "wrong date of a weekday", OF_CALLS),
    };
    Case::Weekday { date }
}

/// The days between two dates in either order: equal, over a month's end, the first
/// and the last there are, in one year, or any; or one of them or both do not exist.
pub fn days_case(dice: &mut Dice) -> Case {
    let one = real(dice, "days");
    let Date { year, month, .. } = one;
    let sort = dice.sort("days: 1 equal, 1 ends, 1 next, 1 year, 2 any, 8 wrong, 1 both wrong");
    let (one, other) = match sort {
        "equal" => (one, one),
        "ends" => (date(FIRST_YEAR, 1, 1), date(LAST_YEAR, 12, 31)),
        "next" if month == 12 => (date(FIRST_YEAR, 12, 31), date(FIRST_YEAR + 1, 1, 1)),
        "next" => (
            date(year, month, last_day(year, month)),
            date(year, month + 1, 1),
        ),
        "year" => (one, date(year, dice.byte(1, 12), dice.byte(1, 28))),
        "any" => (one, real(dice, "days")),
        "wrong" => (one, wrong(dice, "wrong days", OF_CALLS)),
        _ => (wrong(dice, "wrong days", OF_CALLS), date(year, month, 0)),
    };
    let is_turned = dice.turn(&format!("turned, {sort}"), &[true, false]);
    let (first, second) = if is_turned {
        (other, one)
    } else {
        (one, other)
    };
    Case::Days { first, second }
}
