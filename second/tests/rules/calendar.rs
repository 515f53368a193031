//! The calendar by a finger that goes through it day by day: which dates exist, on
//! which weekday, how far apart, and where renewals lead.

use second::dates::days_between::days_between;
use second::dates::renewal::renewal;
use second::dates::weekday::weekday;
use second::dates::Date;

/// The days of the twelve months in a year divisible by four and in another one.
const LENGTHS: [[u8; 12]; 2] = [
    [31, 29, 31, 30, 31, 30, 31, 31, 30, 31, 30, 31],
    [31, 28, 31, 30, 31, 30, 31, 31, 30, 31, 30, 31],
];

/// Every month from January 2000 to December 2099 with its days.
fn months() -> impl Iterator<Item = (u16, u8, u8)> {
    (2_000..2_100u16).flat_map(|year| {
        let lengths = LENGTHS[usize::from(year % 4 != 0)];
        (1..)
            .zip(lengths)
            .map(move |(month, length)| (year, month, length))
    })
}

fn days() -> impl Iterator<Item = Date> {
    months()
        .flat_map(|(year, month, length)| (1..=length).map(move |day| Date { year, month, day }))
}

#[test]
fn each_day_is_one_further_and_one_weekday_on() {
    let first = Date {
        year: 2_000,
        month: 1,
        day: 1,
    };
    let mut wanted = 7;
    for (number, date) in (0..).zip(days()) {
        assert_eq!(weekday(date), Ok(wanted), "{date:?}");
        assert_eq!(days_between(first, date), Ok(number), "{date:?}");
        assert_eq!(days_between(date, first), Ok(-number), "{date:?}");
        wanted = wanted % 7 + 1;
    }
    assert_eq!(days().count(), 36_525);
}

#[test]
fn no_other_date_exists() {
    let exist: std::collections::BTreeSet<Date> = days().collect();
    for year in [0, 1_999, 2_000, 2_001, 2_004, 2_099, 2_100, 65_535] {
        for (month, day) in (0..=255).flat_map(|month| (0..=255).map(move |day| (month, day))) {
            let date = Date { year, month, day };
            assert_eq!(date.exists(), exist.contains(&date), "{date:?}");
        }
    }
}

/// "same day of the month as the first date, or that month's last day if it is
/// shorter": the month by the place in a list of all months.
#[test]
fn a_renewal_leads_to_the_month_so_many_places_on() {
    let all: Vec<(u16, u8, u8)> = months().collect();
    for (place, &(year, month, length)) in (0i32..).zip(&all) {
        for day in [1, 28, length] {
            for count in [
                -1_200, -1_199, -600, -13, -12, -1, 0, 1, 11, 12, 13, 599, 1_199, 1_200,
            ] {
                let target = usize::try_from(place + count)
                    .ok()
                    .and_then(|place| all.get(place));
                let wanted = match target {
                    _ if count.abs() > 1_199 => Err(31),
                    None => Err(32),
                    Some(&(year, month, last)) => Ok(Date {
                        year,
                        month,
                        day: day.min(last),
                    }),
                };
                let first = Date { year, month, day };
                assert_eq!(
                    renewal(first, count as i16),
                    wanted,
                    "{first:?} and {count}"
                );
            }
        }
    }
}

/// "For a first date on days 1 to 28, adding two counts one after the other equals
/// adding their sum whenever all three results lie in 2000 to 2099."
#[test]
fn two_counts_in_turn_are_their_sum() {
    let first = Date {
        year: 2_050,
        month: 6,
        day: 28,
    };
    for one in (-700..=700).step_by(7) {
        for other in (-700..=700).step_by(11) {
            let in_turn = renewal(first, one).and_then(|date| renewal(date, other));
            if let (Ok(in_turn), Ok(at_once)) = (in_turn, renewal(first, one + other)) {
                assert_eq!(in_turn, at_once);
            }
        }
    }
}
