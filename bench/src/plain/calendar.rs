//! Days, months and seasons. Day 0 is 1 January 2000, and was a Saturday.

use super::Refusal;

/// 31 December 2099.
pub const LAST_DAY: u32 = 36_524;

const DAYS_IN_YEAR: u32 = 365;
const DAYS_IN_FOUR_YEARS: u32 = 4 * DAYS_IN_YEAR + 1;
const MONTHS_IN_YEAR: u32 = 12;

/// On which day of its year each month begins.
const MONTH_STARTS: [u32; 12] = [0, 31, 59, 90, 120, 151, 181, 212, 243, 273, 304, 334];
const MONTH_STARTS_IN_LEAP_YEAR: [u32; 12] = [0, 31, 60, 91, 121, 152, 182, 213, 244, 274, 305, 335];

#[derive(Clone, Copy, Debug, PartialEq, Eq)]
pub enum Season {
    Summer,
    Winter,
}

/// Refuses a day after the last.
pub fn check_day(day: u32) -> Result<(), Refusal> {
    if day > LAST_DAY {
        return Err(Refusal::Day);
    }
    Ok(())
}

/// The month of a day, counted from January 2000 as 0. A day off the calendar is in none.
pub fn month_of(day: u32) -> Option<u32> {
    if day > LAST_DAY {
        return None;
    }
    // Of each four years the first has a day more.
    let (four_years, day) = (day / DAYS_IN_FOUR_YEARS, day % DAYS_IN_FOUR_YEARS);
    let (year, day, starts) = if day <= DAYS_IN_YEAR {
        (0, day, &MONTH_STARTS_IN_LEAP_YEAR)
    } else {
        let day = day - 1;
        (day / DAYS_IN_YEAR, day % DAYS_IN_YEAR, &MONTH_STARTS)
    };
    let month = starts.iter().skip(1).filter(|&&start| start <= day).count() as u32;
    Some((4 * four_years + year) * MONTHS_IN_YEAR + month)
}

/// The month one year before the month of a day, if the calendar has it.
pub fn month_one_year_before(day: u32) -> Option<u32> {
    month_of(day)?.checked_sub(MONTHS_IN_YEAR)
}

/// Summer is May through October. A day off the calendar is in no season.
pub fn season_of(day: u32) -> Option<Season> {
    match month_of(day)? % MONTHS_IN_YEAR {
        4..=9 => Some(Season::Summer),
        _ => Some(Season::Winter),
    }
}

pub fn is_weekend(day: u32) -> bool {
    day % 7 < 2
}

#[cfg(test)]
mod tests {
    use super::*;

    #[test]
    fn months_follow_the_civil_calendar() {
        let mut day = 0;
        for month in 0..1_200 {
            let days = match month % 12 {
                3 | 5 | 8 | 10 => 30,
                1 if month / 12 % 4 == 0 => 29,
                1 => 28,
                _ => 31,
            };
            for _ in 0..days {
                assert_eq!(month_of(day), Some(month), "day {day}");
                day += 1;
            }
        }
        assert_eq!(day, LAST_DAY + 1);
        assert_eq!(month_of(day), None);
        assert_eq!(month_of(u32::MAX), None);
    }

    #[test]
    fn leap_day_of_2000() {
        assert_eq!(month_of(58), Some(1));
        assert_eq!(month_of(59), Some(1));
        assert_eq!(month_of(60), Some(2));
    }

    #[test]
    fn summer_is_may_through_october() {
        assert_eq!(season_of(120), Some(Season::Winter));
        assert_eq!(season_of(121), Some(Season::Summer));
        assert_eq!(season_of(304), Some(Season::Summer));
        assert_eq!(season_of(305), Some(Season::Winter));
        assert_eq!(season_of(LAST_DAY + 1), None);
    }

    #[test]
    fn one_year_before() {
        assert_eq!(month_one_year_before(365), None);
        assert_eq!(month_one_year_before(366), Some(0));
        assert_eq!(month_one_year_before(LAST_DAY + 1), None);
    }

    #[test]
    fn day_0_was_a_saturday() {
        let weekend: Vec<u32> = (0..14).filter(|&day| is_weekend(day)).collect();
        assert_eq!(weekend, [0, 1, 7, 8]);
    }
}
