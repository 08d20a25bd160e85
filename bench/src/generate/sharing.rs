//! Totals and records to share them out over, and bases of estimates.

use crate::header::Portion;
use crate::random::Random;

const MOST_TOTAL: u32 = 1_000_000_000;
const MOST_WEIGHT: u32 = 1_000_000;
const MOST_RECORDS: u32 = 3_360;

#[derive(Clone, Debug)]
pub struct ShareCase {
    pub total: u32,
    pub portions: Vec<Portion>,
}

#[derive(Clone, Copy, Debug)]
pub struct EstimateCase {
    pub kwh: u32,
    pub days: u32,
    pub usage_days: u32,
}

impl ShareCase {
    pub fn new(random: &mut Random) -> ShareCase {
        let count = match random.below(20) {
            0 => 0,
            1..=9 => random.between(1, 12),
            10..=16 => random.between(1, 150),
            17 => random.between(1, MOST_RECORDS),
            _ => random.between(MOST_RECORDS - 1, MOST_RECORDS + 1),
        };
        let total = match random.below(12) {
            0 => 0,
            1 => random.below(10),
            2 => MOST_TOTAL,
            3 => MOST_TOTAL - random.below(1_000),
            4 => random.pick(&[MOST_TOTAL + 1, MOST_TOTAL + 2, 1 << 31, u32::MAX]),
            5 => random.any(),
            6..=8 => random.below(MOST_TOTAL),
            _ => random.below(100_000),
        };
        let most_weight = match random.below(8) {
            0 => 0,
            1 => 1,
            2..=4 => 109,
            5 => MOST_WEIGHT,
            _ => random.between(1, MOST_WEIGHT),
        };
        let all_the_same = random.percent(15);
        let bystanders = random.pick(&[0, 0, 10, 50, 90, 100]);
        let portions = (0..count)
            .map(|_| {
                let takes_part = if random.percent(bystanders) {
                    0
                } else {
                    random.pick(&[1, 1, 1, 2, 256, 65_536, u32::MAX])
                };
                let weight = match random.below(10) {
                    _ if all_the_same => most_weight,
                    _ if takes_part == 0 && random.percent(30) => random.any(),
                    0..=1 => 0,
                    2 => most_weight,
                    _ => random.between(0, most_weight),
                };
                Portion { takes_part, weight, share: random.any() }
            })
            .collect();
        let mut case = ShareCase { total, portions };
        if random.percent(8) && !case.portions.is_empty() {
            let place = random.index(case.portions.len());
            case.portions[place].weight = random.pick(&[MOST_WEIGHT, MOST_WEIGHT + 1, u32::MAX]);
        }
        case
    }

    /// A total within the limits over the most records that there may be.
    pub fn largest(random: &mut Random) -> ShareCase {
        let portions = (0..MOST_RECORDS)
            .map(|_| Portion { takes_part: 1, weight: random.between(1, MOST_WEIGHT), share: 0 })
            .collect();
        ShareCase { total: MOST_TOTAL - random.below(1_000), portions }
    }
}

impl EstimateCase {
    pub fn new(random: &mut Random) -> EstimateCase {
        let kwh = match random.below(4) {
            0 => random.pick(&[0, 1, MOST_TOTAL - 1, MOST_TOTAL, MOST_TOTAL + 1, u32::MAX]),
            1 => random.below(MOST_TOTAL),
            _ => random.any(),
        };
        let days = match random.below(3) {
            0 => random.pick(&[0, 1, 2, 998, 999, 1_000, 65_536, u32::MAX]),
            _ => random.between(1, 999),
        };
        let usage_days = match random.below(3) {
            0 => random.pick(&[0, 1, 109, 110, u32::MAX - 1, u32::MAX]),
            1 => random.between(1, 109),
            _ => random.any(),
        };
        EstimateCase { kwh, days, usage_days }
    }
}
