//! The structs of `include/pekstuvna.h` with the numbers that a C caller hands in, and what the plain
//! implementation takes them for.

use crate::plain::demand;
use crate::plain::intervals;
use crate::plain::rate::Rate;
use crate::plain::sharing;

#[repr(C)]
#[derive(Clone, Copy, Debug, PartialEq, Eq)]
pub struct Portion {
    pub takes_part: u32,
    pub weight: u32,
    pub share: u32,
}

#[repr(C)]
#[derive(Clone, Copy, Debug, PartialEq, Eq)]
pub struct Interval {
    pub wh: u32,
    pub weight: u32,
    pub mark: u32,
}

#[repr(C)]
#[derive(Clone, Copy, Debug, PartialEq, Eq)]
pub struct Month {
    pub slots: u32,
    pub first_day: u32,
    pub total: u32,
}

#[repr(C)]
#[derive(Clone, Copy, Debug, PartialEq, Eq)]
pub struct Reading {
    pub customer: u32,
    pub end_day: u32,
    pub tenths: u32,
    pub mark: u32,
    pub initial: u32,
}

#[repr(C)]
#[derive(Clone, Copy, Debug, PartialEq, Eq)]
pub struct Period {
    pub customer: u32,
    pub end_day: u32,
    pub kwh: u32,
    pub usage_days: u32,
    pub initial: u32,
}

impl Portion {
    pub fn plain(self) -> sharing::Portion {
        sharing::Portion { takes_part: self.takes_part != 0, weight: self.weight, share: self.share }
    }
}

impl Interval {
    pub fn plain(self) -> intervals::Interval {
        let mark = match self.mark {
            0 => intervals::Mark::Valid,
            1 => intervals::Mark::Missing,
            _ => intervals::Mark::Filled,
        };
        intervals::Interval { wh: self.wh, weight: self.weight, mark }
    }
}

impl From<intervals::Interval> for Interval {
    fn from(interval: intervals::Interval) -> Interval {
        let mark = match interval.mark {
            intervals::Mark::Valid => 0,
            intervals::Mark::Missing => 1,
            intervals::Mark::Filled => 2,
        };
        Interval { wh: interval.wh, weight: interval.weight, mark }
    }
}

impl Month {
    pub fn plain<'a>(
        &self,
        weekday: &'a [u32],
        weekend: &'a [u32],
        holidays: &'a [u32],
    ) -> intervals::Month<'a> {
        let Month { slots, first_day, total } = *self;
        intervals::Month { slots, first_day, weekday, weekend, holidays, total }
    }
}

impl Reading {
    pub fn plain(self) -> demand::Reading {
        let mark = match self.mark {
            1 => demand::Mark::ReadAndReset,
            2 => demand::Mark::ReadNotReset,
            _ => demand::Mark::Estimated,
        };
        demand::Reading {
            customer: self.customer,
            end_day: self.end_day,
            tenths: self.tenths,
            mark,
            initial: self.initial != 0,
        }
    }
}

impl Period {
    pub fn plain(self, rate: Rate) -> demand::Period {
        demand::Period {
            customer: self.customer,
            end_day: self.end_day,
            kwh: self.kwh,
            usage_days: self.usage_days,
            rate,
            initial: self.initial != 0,
        }
    }
}
