//! Filling the missing intervals of a month by its reference days.

use super::Refusal;
use super::calendar::{LAST_DAY, is_weekend};
use super::sharing::{Sharer, deal};

const MOST_DAYS: usize = 35;
const MOST_WH: u32 = 1_000_000;
const MOST_TOTAL: u32 = 1_000_000_000;

#[derive(Clone, Copy, Debug, PartialEq, Eq)]
pub enum Mark {
    Valid,
    Missing,
    Filled,
}

#[derive(Clone, Copy, Debug, PartialEq, Eq)]
pub struct Interval {
    pub wh: u32,
    pub weight: u32,
    pub mark: Mark,
}

impl Interval {
    fn is_missing(&self) -> bool {
        self.mark == Mark::Missing
    }
}

impl Sharer for Interval {
    fn weight(&self) -> Option<u32> {
        self.is_missing().then_some(self.weight)
    }

    fn take(&mut self, share: u32) {
        self.wh = share;
        self.mark = Mark::Filled;
    }
}

/// What a list of intervals is filled by.
#[derive(Clone, Copy, Debug)]
pub struct Month<'a> {
    pub slots: u32,
    pub first_day: u32,
    /// The Wh of each slot of a weekday, and of a weekend day.
    pub weekday: &'a [u32],
    pub weekend: &'a [u32],
    pub holidays: &'a [u32],
    /// What all intervals together come to, in Wh.
    pub total: u32,
}

impl Month<'_> {
    fn reference(&self, day: u32) -> &[u32] {
        let is_holiday = self.holidays.binary_search(&day).is_ok();
        if is_weekend(day) || is_holiday { self.weekend } else { self.weekday }
    }

    fn check(&self, intervals: &[Interval]) -> Result<(), Refusal> {
        if self.slots != 24 && self.slots != 96 {
            return Err(Refusal::Slots);
        }
        let slots = self.slots as usize;
        let days = intervals.len() / slots;
        if !intervals.len().is_multiple_of(slots)
            || !(1..=MOST_DAYS).contains(&days)
            || u64::from(self.first_day) + days as u64 > u64::from(LAST_DAY) + 1
        {
            return Err(Refusal::IntervalCount);
        }
        let is_wrong =
            |reference: &[u32]| reference.len() != slots || reference.iter().any(|&wh| wh > MOST_WH);
        if is_wrong(self.weekday) || is_wrong(self.weekend) {
            return Err(Refusal::Reference);
        }
        if !self.holidays.is_sorted_by(|before, after| before < after) {
            return Err(Refusal::Holidays);
        }
        let is_wrong = |interval: &Interval| match interval.mark {
            Mark::Valid => interval.wh > MOST_WH,
            Mark::Missing => false,
            Mark::Filled => true,
        };
        if self.total > MOST_TOTAL || intervals.iter().any(is_wrong) {
            return Err(Refusal::Interval);
        }
        if !intervals.iter().any(Interval::is_missing) {
            return Err(Refusal::NothingMissing);
        }
        Ok(())
    }
}

/// Fills the missing intervals, so that all together come to the total. Answers how many it filled.
pub fn fill(month: &Month, intervals: &mut [Interval]) -> Result<usize, Refusal> {
    month.check(intervals)?;
    let valid: u64 = intervals
        .iter()
        .filter(|interval| interval.mark == Mark::Valid)
        .map(|interval| u64::from(interval.wh))
        .sum();
    let rest = u64::from(month.total).checked_sub(valid).ok_or(Refusal::ValidAboveTotal)?;
    if rest > 0 && !has_weight(month, intervals) {
        return Err(Refusal::NoWeights);
    }

    let mut missing = 0;
    for (day, slots) in (month.first_day..).zip(intervals.chunks_exact_mut(month.slots as usize)) {
        for (interval, &weight) in slots.iter_mut().zip(month.reference(day)) {
            if interval.is_missing() {
                interval.weight = weight;
                missing += 1;
            }
        }
    }
    // At most the total, so it fits.
    deal(rest as u32, intervals);
    Ok(missing)
}

/// Whether the reference is above 0 for a missing interval.
fn has_weight(month: &Month, intervals: &[Interval]) -> bool {
    (month.first_day..).zip(intervals.chunks_exact(month.slots as usize)).any(|(day, slots)| {
        let reference = month.reference(day);
        slots.iter().zip(reference).any(|(interval, &weight)| interval.is_missing() && weight > 0)
    })
}

#[cfg(test)]
mod tests {
    use super::*;

    const WEEKDAY: [u32; 24] = [30; 24];
    const WEEKEND: [u32; 24] = [10; 24];

    fn month(total: u32) -> Month<'static> {
        // Day 6 is a Friday.
        Month { slots: 24, first_day: 6, weekday: &WEEKDAY, weekend: &WEEKEND, holidays: &[], total }
    }

    fn valid(wh: u32) -> Interval {
        Interval { wh, weight: 5, mark: Mark::Valid }
    }

    fn missing() -> Interval {
        Interval { wh: 9, weight: 5, mark: Mark::Missing }
    }

    fn two_days() -> Vec<Interval> {
        let mut intervals = vec![valid(100); 48];
        intervals[3] = missing();
        intervals[30] = missing();
        intervals
    }

    #[test]
    fn the_rest_goes_to_the_missing_ones() {
        let mut intervals = two_days();
        assert_eq!(fill(&month(4_680), &mut intervals), Ok(2));
        assert_eq!(intervals[3], Interval { wh: 60, weight: 30, mark: Mark::Filled });
        assert_eq!(intervals[30], Interval { wh: 20, weight: 10, mark: Mark::Filled });
        assert_eq!(intervals[0], valid(100));
    }

    #[test]
    fn a_holiday_uses_the_weekend_reference() {
        let mut intervals = two_days();
        let month = Month { holidays: &[0, 6, 99_999], ..month(4_680) };
        assert_eq!(fill(&month, &mut intervals), Ok(2));
        assert_eq!(intervals[3].wh, 40);
        assert_eq!(intervals[30].wh, 40);
    }

    #[test]
    fn a_total_equal_to_the_valid_sum_fills_with_0() {
        let zeros = [0; 24];
        let month = Month { weekday: &zeros, weekend: &zeros, ..month(4_600) };
        let mut intervals = two_days();
        assert_eq!(fill(&month, &mut intervals), Ok(2));
        assert_eq!(intervals[3], Interval { wh: 0, weight: 0, mark: Mark::Filled });
        let mut intervals = two_days();
        let month = Month { total: 4_601, ..month };
        assert_eq!(fill(&month, &mut intervals), Err(Refusal::NoWeights));
        assert_eq!(intervals, two_days());
    }

    #[test]
    fn refusals() {
        let refusal = |month: Month, intervals: &[Interval]| {
            let mut after = intervals.to_vec();
            let refusal = fill(&month, &mut after).expect_err("it is refused").number();
            assert_eq!(after, intervals);
            refusal
        };
        let good = month(4_680);
        let intervals = two_days();
        let high = [1_000_001; 24];
        assert_eq!(refusal(Month { slots: 48, ..good }, &intervals), 21);
        assert_eq!(refusal(good, &[]), 22);
        assert_eq!(refusal(good, &intervals[..47]), 22);
        assert_eq!(refusal(good, &[missing(); 36 * 24]), 22);
        assert_eq!(refusal(Month { first_day: LAST_DAY, ..good }, &intervals), 22);
        assert_eq!(refusal(Month { first_day: u32::MAX, ..good }, &intervals), 22);
        assert_eq!(refusal(Month { weekday: &WEEKDAY[1..], ..good }, &intervals), 23);
        assert_eq!(refusal(Month { weekend: &high, ..good }, &intervals), 23);
        assert_eq!(refusal(Month { holidays: &[6, 6], ..good }, &intervals), 24);
        assert_eq!(refusal(Month { total: 1_000_000_001, ..good }, &intervals), 25);
        assert_eq!(refusal(good, &[Interval { mark: Mark::Filled, ..valid(1) }; 24]), 25);
        assert_eq!(refusal(good, &[valid(1_000_001); 24]), 25);
        assert_eq!(refusal(good, &[valid(1); 24]), 26);
        assert_eq!(refusal(month(4_599), &intervals), 27);
    }
}
