//! What dates show, on boards, in Set Date and in the calls of request 6.

use second::compare::answer::{Answer, Given};
use second::compare::stream::Case;
use second::dates::{month_length, Date};

use crate::Facts;

/// The month's last day, the day after it, and other ways not to exist.
pub fn of_date(facts: &mut Facts, of: &str, date: Date) {
    let Date { year, month, day } = date;
    let length = |year| month_length(year, month);
    let last = length(year).unwrap_or(0);
    let leap = if month == 2 && last == 29 { "leap" } else { "" };
    shown! { facts;
        length(2_000).is_none() => "{of} month {month}";
        length(2_000).is_some() && last == 0 => "{of} year {year}";
        last > 0 && day == last => "{of} last {month}{leap}";
        last > 0 && day == last + 1 => "{of} after {month}{leap}";
        last > 0 && !date.exists() => "{of} day {day}";
    }
}

/// The number of a month, January 2000 being 0.
fn month_number(date: Date) -> i32 {
    12 * (i32::from(date.year) - 2_000) + i32::from(date.month) - 1
}

pub fn look_at(facts: &mut Facts, case: &Case, answer: &Answer) {
    let number = answer.number;
    match (case, &answer.given) {
        (Case::Renewal { first, count }, Given::Date(result)) => {
            of_date(facts, "D", *first);
            let target = month_number(*first) + i32::from(*count);
            let is_counted = (-1_199..=1_199).contains(count);
            let is_inside = (0..1_200).contains(&target);
            let years = i32::from(result.year) - i32::from(first.year);
            let leap_days = [first, result].map(|date| (date.month, date.day) == (2, 29));
            shown! { facts;
                number != 30 => "D count {count} {number}";
                matches!(number, 0 | 32) => "D to {target} {number}";
                number == 30 && !is_counted => "order 30 31";
                number == 30 && is_counted && !is_inside => "order 30 32";
                number == 31 && !is_inside => "order 31 32";
                number == 0 => "D {:?} years {:?}", count.cmp(&0), years.cmp(&0);
                number == 0 => "D day {} to {}", first.day, result.day;
                number == 0 && *count != 0 && leap_days == [true; 2] => "D leap day kept";
                number == 0 && *count < 0 && count % 12 == 0 => "D whole years back";
            }
        }
        (Case::Weekday { date }, Given::Value(value)) => {
            of_date(facts, "Y", *date);
            shown! { facts; true => "weekday {value}"; }
        }
        (Case::Days { first, second }, Given::Value(value)) => {
            of_date(facts, "B", *first);
            of_date(facts, "B", *second);
            shown! { facts;
                number == 0 => "days {value}";
                number == 0 => "days {:?}", value.cmp(&0);
                number == 30 => "B {} {}", first.exists(), second.exists();
            }
        }
        _ => {}
    }
}
