//! Demand books, and periods to ask about.

use crate::header::{Period, Reading};
use crate::plain::calendar::LAST_DAY;
use crate::plain::rate::Rate;
use crate::random::Random;

const MOST_ENTRIES: u32 = 240;

/// Bytes that are no rate's name, though some come near.
const NO_RATES: &[&[u8]] =
    &[b"", b"E-1", b"E-122", b"e-12", b"ECT-1", b"ECT-1RR", b"OTHER ", b"NR", b"\xff", b"E-12\0"];

#[derive(Clone, Debug)]
pub struct DemandCase {
    pub book: Vec<Reading>,
    pub period: Period,
    pub rate: Vec<u8>,
}

impl DemandCase {
    pub fn new(random: &mut Random) -> DemandCase {
        let entries = match random.below(20) {
            0..=1 => 0,
            2..=11 => random.between(1, 8),
            12..=17 => random.between(1, 60),
            18 => random.between(1, MOST_ENTRIES),
            _ => random.between(MOST_ENTRIES - 1, MOST_ENTRIES + 1),
        };
        let mut case = DemandCase::of_entries(random, entries);
        if random.percent(3) {
            case.period.customer = 0;
        }
        if random.percent(4) {
            case.period.kwh = random.pick(&[99_999_999, 100_000_000, u32::MAX]);
        }
        if random.percent(4) {
            case.period.end_day = random.pick(&[LAST_DAY, LAST_DAY + 1, u32::MAX]);
        }
        if random.percent(6) {
            case.period.usage_days = random.pick(&[0, 1, 109, 110, u32::MAX]);
        }
        if random.percent(3) {
            case.rate = random.pick(NO_RATES).to_vec();
        }
        case
    }

    /// A good period, and a book of so many entries about it and the year before.
    pub fn of_entries(random: &mut Random, entries: u32) -> DemandCase {
        let end_day = match random.below(4) {
            0 => random.between(0, 800),
            1 => LAST_DAY - random.below(400),
            _ => random.between(0, LAST_DAY),
        };
        let initial = if random.percent(30) { random.pick(&[1, 2, 256, u32::MAX]) } else { 0 };
        let most_usage_days = random.pick(&[12, 35, 109]);
        let period = Period {
            customer: random.between(1, 3),
            end_day,
            kwh: if random.percent(70) { random.below(5_000) } else { random.below(100_000_000) },
            usage_days: random.between(1, most_usage_days),
            initial,
        };
        // How many of a hundred entries are initial, and how many are not read and reset.
        let (initials, marks) = random.pick(&[(0, 0), (10, 30), (30, 60), (5, 90)]);
        let most_tenths = random.pick(&[2, 3, 60, 5_000]);
        let customers = random.pick(&[1, 3, 9]);
        let book = (0..entries)
            .map(|_| Reading {
                customer: random.between(u32::from(customers > 1), customers),
                end_day: entry_day(random, end_day),
                tenths: if random.percent(2) { random.any() } else { random.between(1, most_tenths) },
                mark: if random.percent(marks) { random.pick(&[0, 2, 2, 2, 3, 258, u32::MAX]) } else { 1 },
                initial: if random.percent(initials) { random.pick(&[1, 2, 65_536]) } else { 0 },
            })
            .collect();
        let rate = random.pick(&Rate::ALL).name().as_bytes().to_vec();
        DemandCase { book, period, rate }
    }
}

/// A day about one year before the period ends, or any other.
fn entry_day(random: &mut Random, end_day: u32) -> u32 {
    match random.below(10) {
        0..=3 => (end_day + random.below(70)).saturating_sub(400),
        4..=6 => end_day.saturating_sub(random.below(400)),
        7 => end_day.saturating_sub(random.below(2_000)),
        8 => random.between(0, LAST_DAY),
        _ => random.pick(&[LAST_DAY, LAST_DAY + 1, LAST_DAY + 300, u32::MAX]),
    }
}
