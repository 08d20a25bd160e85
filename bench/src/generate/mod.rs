//! Random inputs. Each case is made from a seed and its number alone.

mod damage;
mod demand;
mod history;
mod intervals;
mod sharing;

pub use demand::DemandCase;
pub use history::{Habit, history};
pub use intervals::FillCase;
pub use sharing::{EstimateCase, ShareCase};

use crate::plain::listing::{push_line, push_number};
use crate::plain::sheet::{Call, Sheet};
use crate::random::Random;

/// Cases below it are sheets of histories, some of them damaged.
pub const MUTATED_FROM: u64 = 1_000_000_000;

/// Cases from `MUTATED_FROM` on and below it are sheets with random byte edits, and those from it on are not sheets.
pub const OTHERS_FROM: u64 = 2_000_000_000;

/// What is asked of the library beside the listing of a sheet.
#[derive(Clone, Debug)]
pub enum Other {
    Share(ShareCase),
    Estimate(EstimateCase),
    Fill(FillCase),
    Demand(DemandCase),
    /// A sheet, and the length of a buffer that may be too short.
    Buffer {
        sheet: Vec<u8>,
        length: usize,
    },
}

/// Writes the sheet of a case below `OTHERS_FROM`.
pub fn sheet(seed: u64, case: u64, text: &mut Vec<u8>) {
    let mut random = Random::of_case(seed, case);
    text.clear();
    if case < MUTATED_FROM {
        write_sheet(text, &history(&mut random, Habit::any));
        if random.percent(35) {
            damage::damage(&mut random, text);
        }
    } else {
        write_sheet(text, &history(&mut random, Habit::brief));
        damage::mutate(&mut random, text);
    }
}

/// The input of a case from `OTHERS_FROM` on.
pub fn other(seed: u64, case: u64) -> Other {
    let mut random = Random::of_case(seed, case);
    match random.below(20) {
        0..=5 => Other::Share(ShareCase::new(&mut random)),
        6..=7 => Other::Estimate(EstimateCase::new(&mut random)),
        8..=12 => Other::Fill(FillCase::new(&mut random)),
        13..=18 => Other::Demand(DemandCase::new(&mut random)),
        _ => {
            let mut sheet = Vec::new();
            write_sheet(&mut sheet, &history(&mut random, Habit::brief));
            let length = random.pick(&[0, 1, 8_192, 15_624, 16_383, 16_384, 16_385, 20_000]);
            Other::Buffer { sheet, length }
        }
    }
}

/// The text of a sheet.
pub fn write_sheet(text: &mut Vec<u8>, sheet: &Sheet) {
    let opening = &sheet.opening;
    text.extend_from_slice(b"1 PREMISE\n");
    let numbers = [opening.digits, opening.day, opening.register, opening.customer];
    push_line(text, opening.rate.name().as_bytes(), &numbers);
    push_number(text, sheet.calls.len() as u32);
    text.extend_from_slice(b" CALLS\n");
    for call in &sheet.calls {
        match *call {
            Call::Read { day, register } => push_line(text, b"R", &[day, register]),
            Call::Miss { day } => push_line(text, b"M", &[day]),
            Call::Move { customer } => push_line(text, b"C", &[customer]),
        }
    }
}

#[cfg(test)]
mod tests {
    use super::*;
    use crate::plain::sheet::parse;

    #[test]
    fn a_history_is_read_back() {
        for case in 0..2_000 {
            let mut random = Random::of_case(3, case);
            let sheet = history(&mut random, Habit::any);
            let mut text = Vec::new();
            write_sheet(&mut text, &sheet);
            assert_eq!(parse(&text), Ok(sheet));
        }
    }

    #[test]
    fn a_case_repeats() {
        let (mut first, mut second) = (Vec::new(), Vec::new());
        for case in (0..500).chain(MUTATED_FROM..MUTATED_FROM + 500) {
            sheet(5, case, &mut first);
            sheet(5, case, &mut second);
            assert_eq!(first, second);
        }
    }
}
