//! A premise's file and its book: reads, misses and moves.

use super::Refusal;
use super::calendar::check_day;
use super::check_customer;
use super::dial::Dial;
use super::ladder::{self, Question};
use super::rate::Rate;
use super::sharing::{Sharer, deal};
use super::sheet::{Call, Opening};

/// How many entries the book has place for.
pub const PLACES: usize = 240;

const LONGEST_PERIOD: u32 = 99;
const SHORTEST_INITIAL_ESTIMATE: u32 = 11;
const LONGEST_AVAILABLE: u32 = 109;
const AVAILABLE_KWH_BELOW: u32 = 100_000_000;

#[derive(Clone, Copy, Debug, PartialEq, Eq)]
pub enum Kind {
    Actual = 1,
    TrueUp = 2,
    Estimated = 3,
    PutOff = 4,
    Corrected = 5,
}

/// One period of a customer, and what is billed for it.
#[derive(Clone, Copy, Debug, PartialEq, Eq)]
pub struct Entry {
    pub customer: u32,
    pub end_day: u32,
    pub days: u32,
    pub usage_days: u32,
    pub kind: Kind,
    pub rung: u32,
    pub initial: bool,
    pub kwh: u32,
}

impl Entry {
    /// Whether an estimate may go by it.
    pub fn is_available(&self) -> bool {
        (1..=LONGEST_AVAILABLE).contains(&self.usage_days) && self.kwh < AVAILABLE_KWH_BELOW
    }
}

impl Sharer for Entry {
    fn weight(&self) -> Option<u32> {
        (self.kind != Kind::PutOff).then_some(self.usage_days)
    }

    fn take(&mut self, share: u32) {
        self.kind = Kind::Corrected;
        self.rung = 0;
        self.kwh = share;
    }
}

/// What an accepted call answers.
#[derive(Clone, Copy, Debug, PartialEq, Eq)]
pub enum Answer {
    Read { kind: Kind, kwh: u32, corrected: usize },
    Miss { kind: Kind, rung: u32, kwh: u32 },
    Move,
}

#[derive(Clone, Debug)]
pub struct PremiseFile {
    rate: Rate,
    dial: Dial,
    /// The day last closed.
    day: u32,
    /// The register last accepted.
    register: u32,
    customer: u32,
    /// Whether nothing was entered since the opening or a move.
    fresh: bool,
    entries: Vec<Entry>,
    /// Where the open run begins.
    open_from: usize,
}

impl PremiseFile {
    pub fn open(opening: &Opening) -> Result<PremiseFile, Refusal> {
        let dial = Dial::new(opening.digits)?;
        check_day(opening.day)?;
        dial.check(opening.register)?;
        check_customer(opening.customer)?;
        Ok(PremiseFile {
            rate: opening.rate,
            dial,
            day: opening.day,
            register: opening.register,
            customer: opening.customer,
            fresh: true,
            entries: Vec::with_capacity(PLACES),
            open_from: 0,
        })
    }

    pub fn day(&self) -> u32 {
        self.day
    }

    pub fn register(&self) -> u32 {
        self.register
    }

    pub fn customer(&self) -> u32 {
        self.customer
    }

    /// Whether the next entry is an initial one.
    pub fn is_fresh(&self) -> bool {
        self.fresh
    }

    pub fn entries(&self) -> &[Entry] {
        &self.entries
    }

    pub fn open_run(&self) -> &[Entry] {
        &self.entries[self.open_from..]
    }

    /// The carry-over: what was billed since the last read.
    pub fn open_sum(&self) -> u64 {
        self.open_run().iter().map(|entry| u64::from(entry.kwh)).sum()
    }

    pub fn play(&mut self, call: Call) -> Result<Answer, Refusal> {
        match call {
            Call::Read { day, register } => self.read(day, register),
            Call::Miss { day } => self.miss(day),
            Call::Move { customer } => self.move_in(customer),
        }
    }

    /// Closes a period with a read of the dial.
    pub fn read(&mut self, day: u32, register: u32) -> Result<Answer, Refusal> {
        check_day(day)?;
        self.dial.check(register)?;
        let days = self.days_until(day)?;
        self.check_place()?;

        let advance = self.dial.advance(self.register, register);
        let open_sum = self.open_sum();
        let carrying = self.open_run().iter().any(|entry| entry.kind == Kind::Estimated);
        let mut entry = Entry { kind: Kind::Actual, kwh: advance, ..self.next_entry(day, days) };
        let mut corrected = 0;
        if !carrying {
            self.enter(entry);
        } else if u64::from(advance) < open_sum || is_considerably_higher(advance, open_sum) {
            corrected = self.open_run().iter().filter(|open| open.weight().is_some()).count();
            self.enter(entry);
            entry = self.correct(advance);
        } else {
            entry.kind = Kind::TrueUp;
            entry.kwh = advance - open_sum as u32;
            self.enter(entry);
        }
        self.register = register;
        self.open_from = self.entries.len();
        Ok(Answer::Read { kind: entry.kind, kwh: entry.kwh, corrected })
    }

    /// Closes a period without a read: puts it off or estimates it.
    pub fn miss(&mut self, day: u32) -> Result<Answer, Refusal> {
        check_day(day)?;
        let days = self.days_until(day)?;
        self.check_place()?;

        let mut entry = self.next_entry(day, days);
        if entry.initial && days < SHORTEST_INITIAL_ESTIMATE {
            entry.kind = Kind::PutOff;
            entry.usage_days = 0;
        } else {
            let question = Question { customer: self.customer, end_day: day, rate: self.rate };
            let basis = ladder::standard(&self.entries, &question).ok_or(Refusal::NoAnswer)?;
            let estimate = basis.estimate(entry.usage_days);
            if self.open_sum() + estimate >= u64::from(self.dial.turn()) {
                return Err(Refusal::EstimateTooHigh);
            }
            entry.kind = Kind::Estimated;
            entry.rung = basis.rung;
            // Below the turn of the dial, so it fits.
            entry.kwh = estimate as u32;
        }
        self.enter(entry);
        Ok(Answer::Miss { kind: entry.kind, rung: entry.rung, kwh: entry.kwh })
    }

    /// Names a new customer.
    pub fn move_in(&mut self, customer: u32) -> Result<Answer, Refusal> {
        check_customer(customer)?;
        if !self.open_run().is_empty() {
            return Err(Refusal::MoveWhileOpen);
        }
        if customer == self.customer {
            return Err(Refusal::MoveToSameCustomer);
        }
        self.customer = customer;
        self.fresh = true;
        Ok(Answer::Move)
    }

    /// How long a period is that ends on a day.
    fn days_until(&self, day: u32) -> Result<u32, Refusal> {
        day.checked_sub(self.day)
            .filter(|days| (1..=LONGEST_PERIOD).contains(days))
            .ok_or(Refusal::PeriodLength)
    }

    fn check_place(&self) -> Result<(), Refusal> {
        if self.entries.len() == PLACES {
            return Err(Refusal::BookFull);
        }
        Ok(())
    }

    /// The entry of a period that ends on a day, as an actual one with no kWh yet.
    fn next_entry(&self, end_day: u32, days: u32) -> Entry {
        let put_off_days = match self.entries.last() {
            Some(last) if last.kind == Kind::PutOff => last.days,
            _ => 0,
        };
        Entry {
            customer: self.customer,
            end_day,
            days,
            usage_days: days + put_off_days,
            kind: Kind::Actual,
            rung: 0,
            initial: self.fresh,
            kwh: 0,
        }
    }

    fn enter(&mut self, entry: Entry) {
        self.day = entry.end_day;
        self.fresh = false;
        self.entries.push(entry);
    }

    /// Shares an advance out over the open run, the last entry of which is the read's own. Answers that one.
    fn correct(&mut self, advance: u32) -> Entry {
        let run = &mut self.entries[self.open_from..];
        deal(advance, run);
        let own = &mut run[run.len() - 1];
        own.kind = Kind::Actual;
        *own
    }
}

/// The judgement by half. An advance has at most 8 digits and an open sum is below the turn of the dial, so
/// the judgement's own limits are never reached.
fn is_considerably_higher(advance: u32, open_sum: u64) -> bool {
    2 * u64::from(advance) > 3 * open_sum
}

#[cfg(test)]
mod tests {
    use super::*;

    fn file(rate: Rate, digits: u32) -> PremiseFile {
        let opening = Opening { rate, digits, day: 100, register: 0, customer: 7 };
        PremiseFile::open(&opening).unwrap()
    }

    fn miss(kind: Kind, rung: u32, kwh: u32) -> Result<Answer, Refusal> {
        Ok(Answer::Miss { kind, rung, kwh })
    }

    fn read(kind: Kind, kwh: u32, corrected: usize) -> Result<Answer, Refusal> {
        Ok(Answer::Read { kind, kwh, corrected })
    }

    #[test]
    fn by_half() {
        assert!(!is_considerably_higher(150, 100));
        assert!(is_considerably_higher(151, 100));
        assert!(!is_considerably_higher(0, 0));
        assert!(is_considerably_higher(1, 0));
    }

    #[test]
    fn an_initial_miss_is_put_off_under_11_days() {
        assert_eq!(file(Rate::E12, 5).miss(110), miss(Kind::PutOff, 0, 0));
        assert_eq!(file(Rate::E12, 5).miss(111), miss(Kind::Estimated, 7, 275));
    }

    #[test]
    fn a_put_off_entry_gives_its_days_to_the_next() {
        let mut file = file(Rate::E12, 5);
        file.miss(110).unwrap();
        assert_eq!(file.miss(111), miss(Kind::Estimated, 7, 275));
        let usage_days: Vec<u32> = file.entries().iter().map(|entry| entry.usage_days).collect();
        assert_eq!(usage_days, [0, 11]);
        // Below the open sum: one entry is corrected, and the put-off one takes no part.
        assert_eq!(file.read(122, 220), read(Kind::Actual, 110, 1));
        let kinds: Vec<Kind> = file.entries().iter().map(|entry| entry.kind).collect();
        assert_eq!(kinds, [Kind::PutOff, Kind::Corrected, Kind::Actual]);
    }

    #[test]
    fn a_read_equal_to_the_open_sum_is_a_true_up_of_0() {
        let mut file = file(Rate::E12, 5);
        file.miss(130).unwrap();
        assert_eq!(file.open_sum(), 750);
        assert_eq!(file.clone().read(140, 750), read(Kind::TrueUp, 0, 0));
        assert_eq!(file.clone().read(140, 1_125), read(Kind::TrueUp, 375, 0));
        assert_eq!(file.clone().read(160, 1_126), read(Kind::Actual, 563, 1));
        assert_eq!(file.clone().read(160, 749), read(Kind::Actual, 375, 1));
    }

    #[test]
    fn the_order_of_refusals() {
        let mut file = file(Rate::Other, 4);
        assert_eq!(file.read(36_525, 10_000), Err(Refusal::Day));
        assert_eq!(file.read(300, 10_000), Err(Refusal::Register));
        assert_eq!(file.read(300, 9_999), Err(Refusal::PeriodLength));
        assert_eq!(file.read(200, 9_999), Err(Refusal::PeriodLength));
        assert_eq!(file.read(100, 9_999), Err(Refusal::PeriodLength));
        assert_eq!(file.miss(36_525), Err(Refusal::Day));
        assert_eq!(file.miss(99), Err(Refusal::PeriodLength));
        assert_eq!(file.miss(111), Err(Refusal::NoAnswer));
        assert_eq!(file.move_in(7), Err(Refusal::MoveToSameCustomer));
        assert_eq!(file.miss(110), miss(Kind::PutOff, 0, 0));
        assert_eq!(file.move_in(0), Err(Refusal::Customer));
        assert_eq!(file.move_in(7), Err(Refusal::MoveWhileOpen));
        assert_eq!(file.entries().len(), 1);
    }

    #[test]
    fn an_estimate_may_not_reach_the_turn() {
        let mut file = file(Rate::NrL, 4);
        assert_eq!(file.miss(111), Err(Refusal::EstimateTooHigh));
        file.read(110, 5_000).unwrap();
        file.read(120, 0).unwrap();
        assert_eq!(file.miss(130), miss(Kind::Estimated, 1, 5_000));
        assert_eq!(file.miss(140), Err(Refusal::EstimateTooHigh));
        assert_eq!(file.miss(139), miss(Kind::Estimated, 1, 4_500));
    }

    #[test]
    fn a_full_book_takes_no_more() {
        let mut file = file(Rate::E12, 5);
        for day in 101..=340 {
            file.read(day, 0).unwrap();
        }
        assert_eq!(file.read(341, 0), Err(Refusal::BookFull));
        assert_eq!(file.miss(341), Err(Refusal::BookFull));
        assert_eq!(file.move_in(8), Ok(Answer::Move));
    }

    #[test]
    fn a_move_back_makes_an_initial_entry() {
        let mut file = file(Rate::E12, 5);
        file.read(130, 10).unwrap();
        file.move_in(8).unwrap();
        file.move_in(7).unwrap();
        assert_eq!(file.miss(140), miss(Kind::PutOff, 0, 0));
        assert!(file.entries()[1].initial);
    }
}
