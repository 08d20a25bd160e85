//! Whole histories of a premise. The story is played along on a plain file, so that its reads can be put next to the
//! open sum and to the limit of the judgement.

use crate::plain::calendar::LAST_DAY;
use crate::plain::dial::Dial;
use crate::plain::file::{Kind, PremiseFile};
use crate::plain::rate::Rate;
use crate::plain::sheet::{Call, MOST_CALLS, Opening, Sheet};
use crate::random::Random;

/// The first days of May and November in 2000, between which it is summer.
const SEASON_STARTS: [u32; 2] = [121, 305];
const DAYS_IN_FOUR_YEARS: u32 = 1_461;
const LEAP_DAY: u32 = 59;

/// How a history tends to go.
#[derive(Clone, Copy, Debug)]
pub struct Habit {
    calls: u32,
    /// How likely each sort of call is, in parts of their sum.
    reads: u32,
    misses: u32,
    moves: u32,
    oddities: u32,
    periods: Periods,
    customers: u32,
}

/// How long the periods of a history are.
#[derive(Clone, Copy, Debug)]
enum Periods {
    Always(u32),
    Between(u32, u32),
    AtTheEdges,
}

impl Habit {
    /// A history of any sort and length.
    pub fn any(random: &mut Random) -> Habit {
        let calls = match random.below(100) {
            0..=4 => random.below(3),
            5..=64 => random.between(1, 30),
            65..=84 => random.between(20, 90),
            85..=96 => random.between(60, 200),
            97..=98 => random.between(200, MOST_CALLS),
            _ => MOST_CALLS,
        };
        let (reads, misses, moves, oddities) = match random.below(8) {
            0..=1 => (40, 40, 15, 5),
            2 => (5, 90, 2, 3),
            3 => (1, 99, 0, 0),
            4..=5 => (35, 40, 25, 0),
            6 => (80, 12, 5, 3),
            _ => (25, 25, 20, 30),
        };
        let periods = Periods::any(random);
        Habit { calls, reads, misses, moves, oddities, periods, customers: random.between(2, 4) }
    }

    /// A short history, so that a changed byte is likely to matter.
    pub fn brief(random: &mut Random) -> Habit {
        let calls = random.below(13);
        let periods = Periods::any(random);
        Habit { calls, reads: 40, misses: 40, moves: 15, oddities: 5, periods, customers: 3 }
    }

    /// A history of good calls and so many of them, as a premise mostly has it.
    pub fn usual(calls: u32) -> Habit {
        let periods = Periods::Between(28, 33);
        Habit { calls, reads: 55, misses: 40, moves: 5, oddities: 0, periods, customers: 3 }
    }
}

impl Periods {
    fn any(random: &mut Random) -> Periods {
        match random.below(10) {
            0..=2 => Periods::Between(28, 33),
            3..=4 => {
                let lowest = random.between(25, 33);
                Periods::Between(lowest, lowest + random.below(3))
            }
            5 => Periods::Always(random.between(26, 34)),
            6 => Periods::Always(random.between(1, 99)),
            7 => Periods::Between(1, 14),
            8 => Periods::Between(1, 99),
            _ => Periods::AtTheEdges,
        }
    }

    fn days(self, random: &mut Random) -> u32 {
        match self {
            Periods::Always(days) => days,
            Periods::Between(lowest, highest) => random.between(lowest, highest),
            Periods::AtTheEdges => random.pick(&[1, 2, 9, 10, 11, 12, 30, 98, 99]),
        }
    }
}

/// A history, of the habit that is asked for.
pub fn history(random: &mut Random, habit: impl Fn(&mut Random) -> Habit) -> Sheet {
    let habit = habit(random);
    let opening = if habit.oddities > 0 && random.percent(5) {
        refused_opening(random)
    } else {
        good_opening(random, &habit)
    };
    let mut calls = Vec::with_capacity(habit.calls as usize);
    match PremiseFile::open(&opening) {
        Ok(file) => Story { random, habit, opening, file }.tell(&mut calls),
        Err(_) => calls.extend((0..habit.calls).map(|_| any_call(random))),
    }
    Sheet { opening, calls }
}

fn good_opening(random: &mut Random, habit: &Habit) -> Opening {
    let rate = if random.percent(20) { Rate::Other } else { random.pick(&Rate::ALL) };
    let digits = random.between(4, 8);
    Opening {
        rate,
        digits,
        day: opening_day(random, habit),
        register: some_register(random, 10u32.pow(digits)),
        customer: if random.percent(5) { u32::MAX } else { random.between(1, habit.customers) },
    }
}

fn opening_day(random: &mut Random, habit: &Habit) -> u32 {
    let four_years = random.below(25) * DAYS_IN_FOUR_YEARS;
    let day = match random.below(12) {
        0 => random.below(40),
        1 => four_years + LEAP_DAY + random.below(40),
        2 => four_years + random.pick(&SEASON_STARTS) + random.below(40),
        3 => LAST_DAY - random.below(20),
        // So that the last calls of a long history come near the last day.
        4 => LAST_DAY.saturating_sub(habit.calls * random.between(1, 35)),
        5 => random.between(0, LAST_DAY),
        _ => random.between(0, 20_000),
    };
    // The end of a first period of up to 40 days falls on, or next to, what was chosen.
    if random.percent(50) { day.saturating_sub(random.below(40)) } else { day.min(LAST_DAY) }
}

fn some_register(random: &mut Random, turn: u32) -> u32 {
    match random.below(6) {
        0 => 0,
        1 => turn - 1,
        2 => turn - 1 - random.below(1_000),
        3 => random.below(1_000),
        _ => random.below(turn),
    }
}

/// An opening in which at least one thing is refused.
fn refused_opening(random: &mut Random) -> Opening {
    let mut opening = Opening {
        rate: random.pick(&Rate::ALL),
        digits: random.between(4, 8),
        day: random.between(0, LAST_DAY),
        register: random.below(10_000),
        customer: random.between(1, 9),
    };
    loop {
        if random.percent(25) {
            opening.digits = random.pick(&[0, 1, 2, 3, 9, 10, 11, 4_294_967_295]);
        }
        if random.percent(35) {
            opening.day = random.pick(&[LAST_DAY + 1, LAST_DAY + 2, 65_536, u32::MAX]);
        }
        if random.percent(40) {
            let turn = 10u32.pow(opening.digits.clamp(4, 8));
            opening.register = random.pick(&[turn, turn + 1, turn * 10, u32::MAX]);
        }
        if random.percent(50) {
            opening.customer = 0;
        }
        if PremiseFile::open(&opening).is_err() {
            return opening;
        }
    }
}

/// A call of a good form and of any meaning.
fn any_call(random: &mut Random) -> Call {
    match random.below(3) {
        0 => Call::Read { day: random.any(), register: random.any() },
        1 => Call::Miss { day: random.any() },
        _ => Call::Move { customer: random.any() },
    }
}

/// A history as it goes along.
struct Story<'a> {
    random: &'a mut Random,
    habit: Habit,
    opening: Opening,
    file: PremiseFile,
}

impl Story<'_> {
    fn tell(&mut self, calls: &mut Vec<Call>) {
        for _ in 0..self.habit.calls {
            let call = self.next_call();
            // Whether the call is accepted or refused, the story goes on from there.
            let _ = self.file.play(call);
            calls.push(call);
        }
    }

    fn next_call(&mut self) -> Call {
        let Habit { reads, misses, moves, oddities, .. } = self.habit;
        let dice = self.random.below(reads + misses + moves + oddities);
        if dice < reads {
            self.read()
        } else if dice < reads + misses {
            Call::Miss { day: self.next_day() }
        } else if dice < reads + misses + moves {
            // Nobody can move in while entries are open, so mostly there is a read before.
            if !self.file.open_run().is_empty() && self.random.percent(80) {
                return self.read();
            }
            Call::Move { customer: self.random.between(1, self.habit.customers) }
        } else {
            self.oddity()
        }
    }

    fn read(&mut self) -> Call {
        let day = self.next_day();
        let turn = u64::from(self.turn());
        let register = u64::from(self.file.register()) + u64::from(self.advance());
        Call::Read { day, register: (register % turn) as u32 }
    }

    fn next_day(&mut self) -> u32 {
        let days = if self.file.is_fresh() && self.random.percent(40) {
            self.random.between(1, 12)
        } else {
            self.habit.periods.days(self.random)
        };
        let day = self.file.day() + days;
        if day > LAST_DAY && self.random.percent(60) {
            return self.random.between(self.file.day(), LAST_DAY);
        }
        day
    }

    /// How far the dial goes until a read.
    fn advance(&mut self) -> u32 {
        let turn = self.turn();
        let run = self.file.open_run();
        let open_sum = self.file.open_sum() as u32;
        let carrying = run.iter().any(|entry| entry.kind == Kind::Estimated);
        let days = run.iter().map(|entry| entry.days).sum::<u32>() + 30;
        let random = &mut *self.random;
        let advance = match random.below(12) {
            // Next to the open sum, and to one and a half of it.
            0..=2 if carrying => (open_sum + random.below(3)).saturating_sub(1),
            3..=5 if carrying => (open_sum + open_sum / 2 + random.below(4)).saturating_sub(1),
            6..=7 if carrying => random.between(0, open_sum.saturating_mul(2)),
            // Parts of the whole dial, so that estimates add up to just about all of it.
            8 => turn / random.between(1, 12) - random.below(2),
            9 => random.below(turn),
            10 => random.below(4),
            _ => random.between(1, 80) * days,
        };
        advance.min(turn - 1)
    }

    /// A call that is mostly refused.
    fn oddity(&mut self) -> Call {
        let day = self.file.day();
        let turn = self.turn();
        let random = &mut *self.random;
        let odd_day = match random.below(8) {
            0 => day,
            1 => day.saturating_sub(1),
            2 => day + 100,
            3 => day + random.between(90, 110),
            4 => LAST_DAY + random.between(1, 3),
            5 => u32::MAX,
            6 => random.any(),
            _ => day + random.between(1, 99),
        };
        match random.below(6) {
            0 => Call::Miss { day: odd_day },
            1 => Call::Read { day: odd_day, register: random.below(turn) },
            2 => {
                let register = random.pick(&[turn - 1, turn, turn + 1, turn * 10, u32::MAX]);
                let day = if random.percent(70) { day + random.between(1, 40) } else { odd_day };
                Call::Read { day, register }
            }
            3 => Call::Move { customer: 0 },
            4 => Call::Move { customer: self.file.customer() },
            _ => Call::Move { customer: random.any() },
        }
    }

    fn turn(&self) -> u32 {
        Dial::new(self.opening.digits).map_or(1, Dial::turn)
    }
}
