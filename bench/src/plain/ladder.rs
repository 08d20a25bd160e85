//! The standard method: what an estimate goes by, on rungs 1 to 7.

use super::Refusal;
use super::calendar::{month_of, month_one_year_before, season_of};
use super::file::Entry;
use super::rate::Rate;

const MOST_BASIS_KWH: u32 = 1_000_000_000;
const MOST_BASIS_DAYS: u32 = 999;
const SEASON_ENTRIES: usize = 6;

/// A period that was missed.
#[derive(Clone, Copy, Debug)]
pub struct Question {
    pub customer: u32,
    pub end_day: u32,
    pub rate: Rate,
}

/// So many kWh in so many days, and the rung they were found on.
#[derive(Clone, Copy, Debug, PartialEq, Eq)]
pub struct Basis {
    pub rung: u32,
    pub kwh: u32,
    pub days: u32,
}

impl Basis {
    /// The estimate for so many usage days, rounded down.
    pub fn estimate(&self, usage_days: u32) -> u64 {
        u64::from(self.kwh) * u64::from(usage_days) / u64::from(self.days)
    }

    fn of_entry(rung: u32, entry: &Entry) -> Basis {
        Basis { rung, kwh: entry.kwh, days: entry.usage_days }
    }
}

/// The estimate from a basis that a caller made up, refused beyond the bounds of a basis.
pub fn estimate(kwh: u32, days: u32, usage_days: u32) -> Result<u64, Refusal> {
    if kwh > MOST_BASIS_KWH || !(1..=MOST_BASIS_DAYS).contains(&days) {
        return Err(Refusal::BasisBounds);
    }
    Ok(Basis { rung: 90, kwh, days }.estimate(usage_days))
}

/// The first rung's answer that there is.
pub fn standard(book: &[Entry], question: &Question) -> Option<Basis> {
    let own = |entry: &Entry| entry.customer == question.customer;
    let anyones = |_: &Entry| true;
    last_entry(1, book, own)
        .or_else(|| year_back(2, book, question, own))
        .or_else(|| season(3, book, question, own))
        .or_else(|| last_entry(4, book, anyones))
        .or_else(|| year_back(5, book, question, anyones))
        .or_else(|| season(6, book, question, anyones))
        .or_else(|| class_figure(7, question.rate))
}

/// The very last entry, if it is available and not initial.
fn last_entry(rung: u32, book: &[Entry], whose: impl Fn(&Entry) -> bool) -> Option<Basis> {
    book.last()
        .filter(|entry| whose(entry) && entry.is_available() && !entry.initial)
        .map(|entry| Basis::of_entry(rung, entry))
}

/// The latest entry in the same month one year earlier. It is found first, and then must be available.
fn year_back(
    rung: u32,
    book: &[Entry],
    question: &Question,
    whose: impl Fn(&Entry) -> bool,
) -> Option<Basis> {
    let month = month_one_year_before(question.end_day)?;
    book.iter()
        .rev()
        .find(|entry| whose(entry) && month_of(entry.end_day) == Some(month))
        .filter(|entry| entry.is_available())
        .map(|entry| Basis::of_entry(rung, entry))
}

/// The six latest available entries in the season of the question, together.
fn season(rung: u32, book: &[Entry], question: &Question, whose: impl Fn(&Entry) -> bool) -> Option<Basis> {
    let season = season_of(question.end_day)?;
    let latest = book
        .iter()
        .rev()
        .filter(|entry| whose(entry) && entry.is_available() && season_of(entry.end_day) == Some(season))
        .take(SEASON_ENTRIES);
    let (mut found, mut kwh, mut days) = (0, 0, 0);
    for entry in latest {
        found += 1;
        kwh += entry.kwh;
        days += entry.usage_days;
    }
    (found == SEASON_ENTRIES && (165..=195).contains(&days)).then_some(Basis { rung, kwh, days })
}

/// The class figure of the rate, for one day.
fn class_figure(rung: u32, rate: Rate) -> Option<Basis> {
    rate.class_figure().map(|kwh| Basis { rung, kwh, days: 1 })
}

#[cfg(test)]
mod tests {
    use super::super::file::Kind;
    use super::*;

    fn entry(customer: u32, end_day: u32, usage_days: u32, kwh: u32) -> Entry {
        Entry {
            customer,
            end_day,
            days: usage_days,
            usage_days,
            kind: Kind::Actual,
            rung: 0,
            initial: false,
            kwh,
        }
    }

    fn initial(entry: Entry) -> Entry {
        Entry { initial: true, ..entry }
    }

    fn ask(book: &[Entry], end_day: u32) -> Option<(u32, u32, u32)> {
        let question = Question { customer: 7, end_day, rate: Rate::Other };
        standard(book, &question).map(|basis| (basis.rung, basis.kwh, basis.days))
    }

    #[test]
    fn estimates_round_down() {
        assert_eq!(estimate(350, 30, 31), Ok(361));
        assert_eq!(estimate(50, 30, 31), Ok(51));
        assert_eq!(estimate(1_000_000_000, 1, u32::MAX), Ok(4_294_967_295_000_000_000));
        assert_eq!(estimate(1_000_000_001, 1, 1), Err(Refusal::BasisBounds));
        assert_eq!(estimate(1, 0, 1), Err(Refusal::BasisBounds));
        assert_eq!(estimate(1, 1_000, 1), Err(Refusal::BasisBounds));
        assert_eq!(estimate(1, 999, 0), Ok(0));
    }

    #[test]
    fn the_last_entry() {
        let last = entry(7, 800, 30, 350);
        assert_eq!(ask(&[last], 830), Some((1, 350, 30)));
        assert_eq!(ask(&[initial(last)], 830), None);
        assert_eq!(ask(&[entry(8, 800, 30, 350)], 830), Some((4, 350, 30)));
        assert_eq!(ask(&[initial(entry(8, 800, 30, 350))], 830), None);
        assert_eq!(ask(&[entry(7, 800, 0, 0)], 830), None);
        assert_eq!(ask(&[entry(7, 800, 109, 0)], 830), Some((1, 0, 109)));
        assert_eq!(ask(&[entry(7, 800, 110, 0)], 830), None);
        assert_eq!(ask(&[entry(7, 800, 30, 99_999_999)], 830), Some((1, 99_999_999, 30)));
        assert_eq!(ask(&[entry(7, 800, 30, 100_000_000)], 830), None);
    }

    #[test]
    fn one_year_earlier() {
        // Day 400 is in February 2001, and day 35 in February 2000.
        let own = [entry(7, 35, 30, 1), entry(7, 40, 30, 2), initial(entry(8, 390, 30, 3))];
        assert_eq!(ask(&own, 400), Some((2, 2, 30)));
        let others = [entry(7, 35, 30, 1), entry(8, 40, 30, 2), initial(entry(8, 390, 30, 3))];
        assert_eq!(ask(&others, 400), Some((2, 1, 30)));
        let strangers = [entry(9, 35, 30, 1), entry(8, 40, 30, 2), initial(entry(8, 390, 30, 3))];
        assert_eq!(ask(&strangers, 400), Some((5, 2, 30)));
        let put_off = [entry(7, 35, 30, 1), entry(7, 40, 0, 0), initial(entry(8, 390, 30, 3))];
        assert_eq!(ask(&put_off, 400), None);
        // January 2000 has no month one year earlier, and day 36,525 is in no month.
        assert_eq!(ask(&own, 30), None);
        assert_eq!(ask(&[entry(7, 36_525 - 365, 30, 1), initial(own[0])], 36_525), None);
    }

    #[test]
    fn six_of_a_season() {
        let summer = |customer: u32, days: u32| {
            let mut book = vec![entry(customer, 122, 99, 99)];
            book.extend((0..6).map(|place| entry(customer, 125 + place, days, 10 + place)));
            book.push(initial(entry(customer, 310, 30, 5)));
            book
        };
        // Day 1,300 is in July 2003.
        assert_eq!(ask(&summer(7, 30), 1_300), Some((3, 75, 180)));
        assert_eq!(ask(&summer(8, 30), 1_300), Some((6, 75, 180)));
        assert_eq!(ask(&summer(7, 27), 1_300), None);
        assert_eq!(ask(&summer(7, 28), 1_300), Some((3, 75, 168)));
        assert_eq!(ask(&summer(7, 32), 1_300), Some((3, 75, 192)));
        assert_eq!(ask(&summer(7, 33), 1_300), None);
        // Day 1,100 is in January 2003, and only one entry is of the winter.
        assert_eq!(ask(&summer(7, 30), 1_100), None);
    }

    #[test]
    fn the_class_figure_comes_last() {
        let question = Question { customer: 7, end_day: 30, rate: Rate::NrL };
        let basis = standard(&[], &question);
        assert_eq!(basis, Some(Basis { rung: 7, kwh: 1_156, days: 1 }));
        assert_eq!(ask(&[], 30), None);
    }
}
