//! The demand of a period that has no reading of it.

use super::calendar::{check_day, month_of, month_one_year_before};
use super::rate::Rate;
use super::{Refusal, check_customer};

const MOST_ENTRIES: usize = 240;
const KWH_BELOW: u32 = 100_000_000;
const MOST_USAGE_DAYS: u32 = 109;
const SHORT_INITIAL_BELOW: u32 = 11;

#[derive(Clone, Copy, Debug, PartialEq, Eq)]
pub enum Mark {
    ReadAndReset,
    ReadNotReset,
    Estimated,
}

/// The highest demand of a period, in tenths of a kW.
#[derive(Clone, Copy, Debug)]
pub struct Reading {
    pub customer: u32,
    pub end_day: u32,
    pub tenths: u32,
    pub mark: Mark,
    pub initial: bool,
}

/// The period that is asked about.
#[derive(Clone, Copy, Debug)]
pub struct Period {
    pub customer: u32,
    pub end_day: u32,
    pub kwh: u32,
    pub usage_days: u32,
    pub rate: Rate,
    pub initial: bool,
}

/// What a demand was found by. There is no answer 5.
#[derive(Clone, Copy, Debug, PartialEq, Eq)]
pub enum Source {
    ShortInitialPeriod = 0,
    OwnLastReading = 1,
    OwnYearBack = 2,
    AnyonesLastReading = 3,
    AnyonesYearBack = 4,
    LoadFactor = 6,
}

#[derive(Clone, Copy, Debug, PartialEq, Eq)]
pub struct Demand {
    pub source: Source,
    pub tenths: u64,
}

/// The first answer that there is for a period.
pub fn demand(book: &[Reading], period: &Period) -> Result<Demand, Refusal> {
    check_customer(period.customer)?;
    if book.len() > MOST_ENTRIES {
        return Err(Refusal::DemandBook);
    }
    if period.kwh >= KWH_BELOW
        || check_day(period.end_day).is_err()
        || !(1..=MOST_USAGE_DAYS).contains(&period.usage_days)
    {
        return Err(Refusal::DemandQuestion);
    }

    let own = |reading: &Reading| reading.customer == period.customer;
    let anyones = |_: &Reading| true;
    let answer = |source, tenths| Demand { source, tenths };
    short_initial_period(period)
        .map(|tenths| answer(Source::ShortInitialPeriod, tenths))
        .or_else(|| Some(answer(Source::OwnLastReading, last_reading(book, own)?)))
        .or_else(|| Some(answer(Source::OwnYearBack, year_back(book, period, own)?)))
        .or_else(|| Some(answer(Source::AnyonesLastReading, last_reading(book, anyones)?)))
        .or_else(|| Some(answer(Source::AnyonesYearBack, year_back(book, period, anyones)?)))
        .or_else(|| Some(answer(Source::LoadFactor, by_load_factor(period)?)))
        .ok_or(Refusal::NoAnswer)
}

fn short_initial_period(period: &Period) -> Option<u64> {
    (period.initial && period.usage_days < SHORT_INITIAL_BELOW).then_some(0)
}

fn last_reading(book: &[Reading], whose: impl Fn(&Reading) -> bool) -> Option<u64> {
    let place = book.len().checked_sub(1).filter(|&place| whose(&book[place]))?;
    tenths_at(book, place)
}

/// The latest reading in the same month one year earlier. It is found first, and then tested.
fn year_back(book: &[Reading], period: &Period, whose: impl Fn(&Reading) -> bool) -> Option<u64> {
    let month = month_one_year_before(period.end_day)?;
    let place =
        book.iter().rposition(|reading| whose(reading) && month_of(reading.end_day) == Some(month))?;
    tenths_at(book, place)
}

fn by_load_factor(period: &Period) -> Option<u64> {
    let load_factor = period.rate.load_factor()?;
    let hours = 24 * u64::from(period.usage_days);
    (u64::from(period.kwh) * 1_000).checked_div(hours * u64::from(load_factor))
}

/// The demand at a place of the book, if it neither counts as estimated nor is initial.
fn tenths_at(book: &[Reading], place: usize) -> Option<u64> {
    let reading = &book[place];
    (!reading.initial && !counts_as_estimated(book, place)).then_some(u64::from(reading.tenths))
}

/// A meter that was not reset goes on showing the peak before, until there is a greater one.
fn counts_as_estimated(book: &[Reading], place: usize) -> bool {
    let reading = &book[place];
    let shows_the_one_before = place.checked_sub(1).is_some_and(|before| {
        let before = &book[before];
        before.mark == Mark::ReadNotReset && reading.tenths <= before.tenths
    });
    reading.mark == Mark::Estimated || shows_the_one_before
}

#[cfg(test)]
mod tests {
    use super::*;

    fn reading(customer: u32, end_day: u32, tenths: u32, mark: Mark) -> Reading {
        Reading { customer, end_day, tenths, mark, initial: false }
    }

    fn read(customer: u32, end_day: u32, tenths: u32) -> Reading {
        reading(customer, end_day, tenths, Mark::ReadAndReset)
    }

    const PERIOD: Period =
        Period { customer: 7, end_day: 400, kwh: 600, usage_days: 30, rate: Rate::Ect1R, initial: false };

    fn answer(book: &[Reading], period: Period) -> (u32, u64) {
        let demand = demand(book, &period).expect("there is an answer");
        (demand.source as u32, demand.tenths)
    }

    #[test]
    fn by_the_load_factor() {
        assert_eq!(answer(&[], PERIOD), (6, 19));
        let other = Period { rate: Rate::E12, ..PERIOD };
        assert_eq!(demand(&[], &other), Err(Refusal::NoAnswer));
    }

    #[test]
    fn an_initial_period_under_11_usage_days() {
        let initial = Period { initial: true, rate: Rate::Other, ..PERIOD };
        assert_eq!(answer(&[read(7, 390, 50)], Period { usage_days: 10, ..initial }), (0, 0));
        assert_eq!(answer(&[], Period { usage_days: 10, ..initial }), (0, 0));
        let long = Period { usage_days: 11, ..initial };
        assert_eq!(demand(&[], &long), Err(Refusal::NoAnswer));
    }

    #[test]
    fn the_answers_in_their_order() {
        // Day 400 is in February 2001, and day 35 in February 2000.
        assert_eq!(answer(&[read(7, 35, 40), read(7, 390, 50)], PERIOD), (1, 50));
        assert_eq!(answer(&[read(7, 35, 40), read(8, 390, 50)], PERIOD), (2, 40));
        assert_eq!(answer(&[read(8, 35, 40), read(8, 390, 50)], PERIOD), (3, 50));
        let estimated = reading(8, 390, 50, Mark::Estimated);
        assert_eq!(answer(&[read(8, 35, 40), estimated], PERIOD), (4, 40));
        assert_eq!(answer(&[read(8, 65, 40), estimated], PERIOD), (6, 19));
    }

    #[test]
    fn a_meter_that_was_not_reset() {
        let before = reading(9, 370, 50, Mark::ReadNotReset);
        assert_eq!(answer(&[before, read(7, 390, 49)], PERIOD), (6, 19));
        assert_eq!(answer(&[before, read(7, 390, 50)], PERIOD), (6, 19));
        assert_eq!(answer(&[before, read(7, 390, 51)], PERIOD), (1, 51));
    }

    #[test]
    fn found_first_and_then_tested() {
        let initial = Reading { initial: true, ..read(7, 36, 45) };
        assert_eq!(answer(&[read(7, 35, 40), initial, read(8, 390, 50)], PERIOD), (3, 50));
        let off_the_calendar = read(7, 36_525, 40);
        let last = Period { end_day: 36_524, ..PERIOD };
        let estimated = reading(8, 390, 50, Mark::Estimated);
        assert_eq!(answer(&[off_the_calendar, estimated], last), (6, 19));
    }

    #[test]
    fn refusals() {
        let refusal =
            |book: &[Reading], period: Period| demand(book, &period).expect_err("it is refused").number();
        let book = vec![read(7, 1, 1); 241];
        assert_eq!(refusal(&book, Period { customer: 0, kwh: u32::MAX, ..PERIOD }), 4);
        assert_eq!(refusal(&book, Period { kwh: u32::MAX, ..PERIOD }), 31);
        assert_eq!(refusal(&book[1..], Period { kwh: 100_000_000, ..PERIOD }), 32);
        assert_eq!(refusal(&[], Period { end_day: 36_525, ..PERIOD }), 32);
        assert_eq!(refusal(&[], Period { usage_days: 0, ..PERIOD }), 32);
        assert_eq!(refusal(&[], Period { usage_days: 110, ..PERIOD }), 32);
    }
}
