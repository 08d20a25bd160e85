//! How often each thing occurred in a run, so that a reader sees that all were hit.

use crate::plain::sheet::{Call, MOST_BYTES, parse};

/// What is counted, each by a number of its own.
#[derive(Clone, Copy, Debug, PartialEq, Eq)]
pub enum Group {
    /// An accepted read, by its kind.
    Read,
    /// An accepted miss, by its rung; a put-off one by 0.
    Miss,
    Move,
    /// Refused calls, by the refusal.
    ReadRefused,
    MissRefused,
    MoveRefused,
    /// Things that take a longer history.
    Deep,
    /// An entry at the end of a history, by its kind.
    Entry,
    /// Refused openings, by the refusal.
    Opening,
    /// The premise's lines, by the line (8) and by the field (6).
    PremiseMissing,
    PremiseForm,
    PremiseField,
    /// The calls' lines, by the line up to 4 (8) and by the field (6).
    CallsMissing,
    CallsForm,
    CallsField,
    /// The sheet as a whole.
    Whole,
    /// The other functions, by the refusal, or 0.
    Share,
    Estimate,
    Fill,
    Buffer,
    /// Demand, by the answer, and by the refusal.
    Demand,
    DemandRefused,
}

const GROUPS: usize = Group::DemandRefused as usize + 1;
const NUMBERS: usize = 33;

/// Everything that can occur. A sheet has at most as many calls as its book has places, so 13 does not come up in
/// one, and 11 only with another book.
const SHEET_ROWS: &[(Group, usize, &str)] = &[
    (Group::Read, 1, "read, actual"),
    (Group::Read, 2, "read, true-up"),
    (Group::Miss, 0, "miss, put off"),
    (Group::Miss, 1, "miss, estimated on rung 1"),
    (Group::Miss, 2, "miss, estimated on rung 2"),
    (Group::Miss, 3, "miss, estimated on rung 3"),
    (Group::Miss, 4, "miss, estimated on rung 4"),
    (Group::Miss, 5, "miss, estimated on rung 5"),
    (Group::Miss, 6, "miss, estimated on rung 6"),
    (Group::Miss, 7, "miss, estimated on rung 7"),
    (Group::Move, 0, "move"),
    (Group::ReadRefused, 2, "read refused, N 2"),
    (Group::ReadRefused, 3, "read refused, N 3"),
    (Group::ReadRefused, 12, "read refused, N 12"),
    (Group::MissRefused, 2, "miss refused, N 2"),
    (Group::MissRefused, 12, "miss refused, N 12"),
    (Group::MissRefused, 14, "miss refused, N 14"),
    (Group::MissRefused, 15, "miss refused, N 15"),
    (Group::MoveRefused, 4, "move refused, N 4"),
    (Group::MoveRefused, 16, "move refused, N 16"),
    (Group::MoveRefused, 17, "move refused, N 17"),
    (Group::Deep, TRUE_UP_OF_0, "true-up of 0 kWh"),
    (Group::Deep, CORRECTING, "read that corrected entries"),
    (Group::Deep, CORRECTING_100, "read that corrected 100 and more"),
    (Group::Deep, PAST_ALL_NINES, "read past all nines"),
    (Group::Deep, MOVE_BACK, "move back to an earlier customer"),
    (Group::Deep, FULL_BOOK, "book with all 240 places in use"),
    (Group::Entry, 1, "entry listed as actual"),
    (Group::Entry, 2, "entry listed as true-up"),
    (Group::Entry, 3, "entry listed as estimated"),
    (Group::Entry, 4, "entry listed as put off"),
    (Group::Entry, 5, "entry listed as corrected"),
    (Group::Opening, 1, "opening refused, X P 2 0 1"),
    (Group::Opening, 2, "opening refused, X P 2 0 2"),
    (Group::Opening, 3, "opening refused, X P 2 0 3"),
    (Group::Opening, 4, "opening refused, X P 2 0 4"),
    (Group::PremiseMissing, 1, "X P 1 0 8"),
    (Group::PremiseMissing, 2, "X P 2 0 8"),
    (Group::PremiseForm, 0, "X P 2 0 7"),
    (Group::PremiseField, 1, "X P 2 1 6"),
    (Group::PremiseField, 2, "X P 2 2 6"),
    (Group::PremiseField, 3, "X P 2 3 6"),
    (Group::PremiseField, 4, "X P 2 4 6"),
    (Group::PremiseField, 5, "X P 2 5 6"),
    (Group::CallsMissing, 3, "X C 3 0 8"),
    (Group::CallsMissing, 4, "X C n 0 8, a later line"),
    (Group::CallsForm, 0, "X C n 0 7"),
    (Group::CallsField, 2, "X C n 2 6"),
    (Group::CallsField, 3, "X C n 3 6"),
    (Group::Whole, TOO_LONG, "X S 0 0 9, over 8192 bytes"),
    (Group::Whole, BYTES_LEFT, "X S 0 0 9, bytes left"),
];

const OTHER_ROWS: &[(Group, usize, &str)] = &[
    (Group::Share, 0, "shared out"),
    (Group::Share, 28, "sharing refused, 28"),
    (Group::Share, 29, "sharing refused, 29"),
    (Group::Estimate, 0, "estimate"),
    (Group::Estimate, 30, "estimate refused, 30"),
    (Group::Fill, 0, "intervals filled"),
    (Group::Fill, 21, "filling refused, 21"),
    (Group::Fill, 22, "filling refused, 22"),
    (Group::Fill, 23, "filling refused, 23"),
    (Group::Fill, 24, "filling refused, 24"),
    (Group::Fill, 25, "filling refused, 25"),
    (Group::Fill, 26, "filling refused, 26"),
    (Group::Fill, 27, "filling refused, 27"),
    (Group::Fill, 28, "filling refused, 28"),
    (Group::Buffer, 0, "listing into a buffer long enough"),
    (Group::Buffer, 10, "buffer refused, 10"),
    (Group::Demand, 0, "demand by answer 0"),
    (Group::Demand, 1, "demand by answer 1"),
    (Group::Demand, 2, "demand by answer 2"),
    (Group::Demand, 3, "demand by answer 3"),
    (Group::Demand, 4, "demand by answer 4"),
    (Group::Demand, 6, "demand by answer 6"),
    (Group::DemandRefused, 4, "demand refused, 4"),
    (Group::DemandRefused, 6, "demand refused, 6"),
    (Group::DemandRefused, 14, "demand refused, 14"),
    (Group::DemandRefused, 31, "demand refused, 31"),
    (Group::DemandRefused, 32, "demand refused, 32"),
];

const TRUE_UP_OF_0: usize = 0;
const CORRECTING: usize = 1;
const CORRECTING_100: usize = 2;
const PAST_ALL_NINES: usize = 3;
const MOVE_BACK: usize = 4;
const FULL_BOOK: usize = 5;

const TOO_LONG: usize = 0;
const BYTES_LEFT: usize = 1;

pub struct Tally {
    counts: [[u64; NUMBERS]; GROUPS],
}

impl Default for Tally {
    fn default() -> Tally {
        Tally { counts: [[0; NUMBERS]; GROUPS] }
    }
}

impl Tally {
    pub fn add(&mut self, group: Group, number: u32) {
        // A number beyond all refusals is counted with the last.
        self.counts[group as usize][(number as usize).min(NUMBERS - 1)] += 1;
    }

    /// Counts what a sheet led to, from its text and its listing.
    pub fn add_listing(&mut self, sheet: &[u8], listing: &[u8]) {
        let mut lines = listing.split(|&byte| byte == b'\n');
        if listing.starts_with(b"X") {
            self.add_fault(sheet, listing);
            return;
        }
        let Ok(sheet) = parse(sheet) else { return };
        lines.next();
        let mut register = sheet.opening.register;
        let mut customers = vec![sheet.opening.customer];
        for (call, answer) in sheet.calls.iter().zip(lines.by_ref()) {
            let number = |place| number_at(answer, place);
            match (call, answer.first()) {
                (_, Some(b'N')) => self.add(refused_group(call), number(1)),
                (Call::Read { register: new, .. }, _) => {
                    self.add_read(number(1), number(2), number(3));
                    if *new < register {
                        self.add(Group::Deep, PAST_ALL_NINES as u32);
                    }
                    register = *new;
                }
                (Call::Miss { .. }, _) => self.add(Group::Miss, number(2)),
                (Call::Move { customer }, _) => {
                    self.add(Group::Move, 0);
                    if customers.contains(customer) {
                        self.add(Group::Deep, MOVE_BACK as u32);
                    } else {
                        customers.push(*customer);
                    }
                }
            }
        }
        if number_at(lines.next().unwrap_or_default(), 0) == 240 {
            self.add(Group::Deep, FULL_BOOK as u32);
        }
        for entry in lines.filter(|line| !line.is_empty()) {
            self.add(Group::Entry, number_at(entry, 4));
        }
    }

    fn add_read(&mut self, kind: u32, kwh: u32, corrected: u32) {
        self.add(Group::Read, kind);
        if kind == 2 && kwh == 0 {
            self.add(Group::Deep, TRUE_UP_OF_0 as u32);
        }
        if corrected > 0 {
            self.add(Group::Deep, CORRECTING as u32);
        }
        if corrected >= 100 {
            self.add(Group::Deep, CORRECTING_100 as u32);
        }
    }

    fn add_fault(&mut self, sheet: &[u8], line: &[u8]) {
        let line = line.strip_suffix(b"\n").unwrap_or(line);
        let section = line.get(2).copied().unwrap_or_default();
        let (row, field, refusal) = (number_at(line, 2), number_at(line, 3), number_at(line, 4));
        match (section, refusal) {
            (b'P', 8) => self.add(Group::PremiseMissing, row),
            (b'P', 7) => self.add(Group::PremiseForm, field),
            (b'P', 6) => self.add(Group::PremiseField, field),
            (b'P', _) => self.add(Group::Opening, refusal),
            (b'C', 8) => self.add(Group::CallsMissing, row.min(4)),
            (b'C', 7) => self.add(Group::CallsForm, field),
            (b'C', _) => self.add(Group::CallsField, field),
            _ if sheet.len() > MOST_BYTES => self.add(Group::Whole, TOO_LONG as u32),
            _ => self.add(Group::Whole, BYTES_LEFT as u32),
        }
    }

    /// Prints how often each thing occurred.
    pub fn print(&self) {
        println!("How often each thing occurred:");
        for &(group, number, name) in SHEET_ROWS.iter().chain(OTHER_ROWS) {
            println!("{:>12}  {name}", self.counts[group as usize][number]);
        }
    }

    /// What can occur and never did in a run of that many cases. A short run is not held to it.
    pub fn never_occurred(&self, sheets: u64, others: u64) -> Vec<&'static str> {
        let sheet_rows = if sheets >= 100_000 { SHEET_ROWS } else { &[] };
        let other_rows = if others >= 10_000 { OTHER_ROWS } else { &[] };
        sheet_rows
            .iter()
            .chain(other_rows)
            .filter(|(group, number, _)| self.counts[*group as usize][*number] == 0)
            .map(|(_, _, name)| *name)
            .collect()
    }

    /// How many things occurred that the documents leave no room for.
    pub fn unheard_of(&self) -> u64 {
        let all: u64 = self.counts.iter().flatten().sum();
        let known: u64 = SHEET_ROWS
            .iter()
            .chain(OTHER_ROWS)
            .map(|(group, number, _)| self.counts[*group as usize][*number])
            .sum();
        all - known
    }
}

fn refused_group(call: &Call) -> Group {
    match call {
        Call::Read { .. } => Group::ReadRefused,
        Call::Miss { .. } => Group::MissRefused,
        Call::Move { .. } => Group::MoveRefused,
    }
}

/// The number in a field of a line, where fields count from 0.
fn number_at(line: &[u8], place: usize) -> u32 {
    let field = line.split(|&byte| byte == b' ').nth(place).unwrap_or_default();
    field.iter().fold(0, |value: u32, byte| value.wrapping_mul(10).wrapping_add(u32::from(byte & 15)))
}

#[cfg(test)]
mod tests {
    use super::*;
    use crate::generate;
    use crate::plain::list_sheet;

    #[test]
    fn a_line_is_counted_where_it_belongs() {
        let mut tally = Tally::default();
        let sheet = b"1 PREMISE\nE-12 5 100 99500 7\n3 CALLS\nM 130\nR 160 0\nC 0\n";
        tally.add_listing(sheet, &list_sheet(sheet));
        tally.add_listing(b"", &list_sheet(b""));
        let count = |group: Group, number: usize| tally.counts[group as usize][number];
        assert_eq!(count(Group::Miss, 7), 1);
        assert_eq!(count(Group::Read, 1), 1);
        assert_eq!(count(Group::Deep, CORRECTING), 1);
        assert_eq!(count(Group::Deep, PAST_ALL_NINES), 1);
        assert_eq!(count(Group::MoveRefused, 4), 1);
        assert_eq!(count(Group::Entry, 5), 1);
        assert_eq!(count(Group::PremiseMissing, 1), 1);
        assert_eq!(tally.unheard_of(), 0);
    }

    #[test]
    fn generated_sheets_reach_nearly_everything() {
        let mut tally = Tally::default();
        let mut text = Vec::new();
        for case in 0..10_000 {
            generate::sheet(1, case, &mut text);
            tally.add_listing(&text, &list_sheet(&text));
        }
        let never = tally.never_occurred(100_000, 0);
        assert!(never.is_empty(), "{never:?}");
        assert_eq!(tally.unheard_of(), 0);
    }
}
