//! Months of intervals, with good and wrong reference days, holidays and totals.

use crate::header::{Interval, Month};
use crate::plain::calendar::LAST_DAY;
use crate::random::Random;

const MOST_WH: u32 = 1_000_000;
const MOST_TOTAL: u32 = 1_000_000_000;
const MOST_DAYS: u32 = 35;

#[derive(Clone, Debug)]
pub struct FillCase {
    pub month: Month,
    pub weekday: Vec<u32>,
    pub weekend: Vec<u32>,
    pub holidays: Vec<u32>,
    pub intervals: Vec<Interval>,
}

impl FillCase {
    pub fn new(random: &mut Random) -> FillCase {
        let days = match random.below(10) {
            0 => MOST_DAYS,
            1..=2 => random.between(1, MOST_DAYS),
            _ => random.between(1, 6),
        };
        let missing = random.pick(&[1, 5, 33, 33, 60, 95, 100]);
        let mut case = FillCase::good(random, days, missing);
        // Mostly one fault at most, and sometimes several, so that their order shows.
        let faults = if random.percent(15) { random.between(2, 4) } else { random.below(2) };
        for _ in 0..faults {
            case.spoil(random);
        }
        case
    }

    /// A month that can be filled, with so many missing intervals of a hundred.
    pub fn good(random: &mut Random, days: u32, missing: u32) -> FillCase {
        let slots = random.pick(&[24, 96]);
        FillCase::of_slots(random, slots, days, missing)
    }

    pub fn of_slots(random: &mut Random, slots: u32, days: u32, missing: u32) -> FillCase {
        let last_start = LAST_DAY + 1 - days;
        let first_day = match random.below(5) {
            0 => random.below(15),
            1 => last_start - random.below(3),
            _ => random.between(0, last_start),
        };
        let most_wh = random.pick(&[1, 300, 5_000, 200_000]);
        let mut intervals: Vec<Interval> = (0..slots * days)
            .map(|_| {
                let mark = u32::from(random.percent(missing));
                let wh = if mark == 1 { random.any() } else { random.between(0, most_wh) };
                Interval { wh, weight: random.any(), mark }
            })
            .collect();
        let place = random.index(intervals.len());
        intervals[place].mark = 1;
        let valid = valid_sum(&intervals);
        let most_wh = random.pick(&[0, 1, 300, 5_000, MOST_WH]);
        let weekday = reference(random, slots, most_wh);
        let weekend = reference(random, slots, most_wh);
        let holidays = holidays(random, first_day, days);
        let spare = MOST_TOTAL.saturating_sub(valid);
        let rest = match random.below(6) {
            0 => 0,
            1 => random.below(5),
            2 => spare,
            _ => random.below(1_000_000),
        };
        let total = valid + rest.min(spare);
        let month = Month { slots, first_day, total };
        FillCase { month, weekday, weekend, holidays, intervals }
    }

    /// Makes one thing wrong, or puts it at the edge of being wrong.
    fn spoil(&mut self, random: &mut Random) {
        match random.below(17) {
            0 => self.month.slots = random.pick(&[0, 1, 12, 23, 25, 48, 95, 97, 120, u32::MAX]),
            1 => self.month.slots = 120 - self.month.slots.min(120),
            2 => self.intervals.clear(),
            3 => drop(self.intervals.pop()),
            4 => self.intervals.push(Interval { wh: 0, weight: 0, mark: 1 }),
            5 => {
                let length = self.month.slots.clamp(1, 96) * random.between(35, 36);
                self.intervals.resize(length as usize, Interval { wh: 0, weight: 0, mark: 1 });
            }
            6 => {
                let days = self.intervals.len() as u32 / 24 + 1;
                self.month.first_day =
                    random.pick(&[LAST_DAY, LAST_DAY + 1, LAST_DAY + 2 - days.min(LAST_DAY), u32::MAX]);
            }
            7 => self.some_reference(random).truncate(23),
            8 => {
                let value = random.between(0, 3);
                self.some_reference(random).push(value);
            }
            9 => {
                let value = random.pick(&[MOST_WH, MOST_WH + 1, u32::MAX]);
                let place = random.index(24);
                if let Some(wh) = self.some_reference(random).get_mut(place) {
                    *wh = value;
                }
            }
            10 => {
                let day = self.holidays.last().copied().unwrap_or(self.month.first_day);
                self.holidays.push(day);
                if random.percent(70) {
                    self.holidays.push(random.pick(&[day, day.saturating_sub(1), day.saturating_add(1)]));
                }
            }
            11 => self.some_interval(random, |interval, random| {
                interval.mark = random.pick(&[2, 3, 256, u32::MAX])
            }),
            12 => self.some_interval(random, |interval, random| {
                *interval =
                    Interval { wh: random.pick(&[MOST_WH, MOST_WH + 1, u32::MAX]), weight: 0, mark: 0 };
            }),
            13 => self.month.total = random.pick(&[MOST_TOTAL, MOST_TOTAL + 1, 1 << 31, u32::MAX]),
            14 => self.intervals.iter_mut().for_each(|interval| {
                interval.wh %= 100;
                interval.mark = 0;
            }),
            15 => {
                let valid = valid_sum(&self.intervals);
                self.month.total = random.pick(&[valid.saturating_sub(1), valid, valid.saturating_add(1), 0]);
            }
            _ => {
                self.weekday.iter_mut().for_each(|wh| *wh = 0);
                if random.percent(70) {
                    self.weekend.iter_mut().for_each(|wh| *wh = 0);
                }
            }
        }
    }

    fn some_reference(&mut self, random: &mut Random) -> &mut Vec<u32> {
        if random.percent(50) { &mut self.weekday } else { &mut self.weekend }
    }

    fn some_interval(&mut self, random: &mut Random, change: impl Fn(&mut Interval, &mut Random)) {
        if !self.intervals.is_empty() {
            let place = random.index(self.intervals.len());
            change(&mut self.intervals[place], random);
        }
    }
}

fn valid_sum(intervals: &[Interval]) -> u32 {
    let valid = intervals.iter().filter(|interval| interval.mark == 0);
    valid.fold(0, |sum: u32, interval| sum.saturating_add(interval.wh))
}

fn reference(random: &mut Random, slots: u32, most_wh: u32) -> Vec<u32> {
    (0..slots).map(|_| if random.percent(20) { 0 } else { random.between(0, most_wh) }).collect()
}

/// Rising days, in and around the month.
fn holidays(random: &mut Random, first_day: u32, days: u32) -> Vec<u32> {
    let mut holidays = Vec::new();
    let mut day = first_day.saturating_sub(random.below(10));
    for _ in 0..random.pick(&[0, 0, 1, 2, 5]) {
        holidays.push(day);
        day += random.between(1, days);
    }
    if random.percent(5) {
        holidays.push(u32::MAX);
    }
    holidays
}
