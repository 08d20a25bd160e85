//! Reading a sheet: the opening of a premise and its calls, as text.

use std::ops::RangeInclusive;

use super::Refusal;
use super::rate::Rate;

pub const MOST_BYTES: usize = 8_192;
pub const MOST_CALLS: u32 = 240;

/// How a premise is opened.
#[derive(Clone, Copy, Debug, PartialEq, Eq)]
pub struct Opening {
    pub rate: Rate,
    pub digits: u32,
    pub day: u32,
    pub register: u32,
    pub customer: u32,
}

#[derive(Clone, Copy, Debug, PartialEq, Eq)]
pub enum Call {
    Read { day: u32, register: u32 },
    Miss { day: u32 },
    Move { customer: u32 },
}

#[derive(Clone, Debug, PartialEq, Eq)]
pub struct Sheet {
    pub opening: Opening,
    pub calls: Vec<Call>,
}

#[derive(Clone, Copy, Debug, PartialEq, Eq)]
pub enum Section {
    Premise,
    Calls,
    Whole,
}

/// Where a sheet is wrong, and why. Lines and fields count from 1; 0 is no single one.
#[derive(Clone, Copy, Debug, PartialEq, Eq)]
pub struct Fault {
    pub section: Section,
    pub line: u32,
    pub field: u32,
    pub refusal: Refusal,
}

impl Fault {
    /// A good sheet with an opening that is refused.
    pub fn opening(refusal: Refusal) -> Fault {
        Fault { section: Section::Premise, line: 2, field: 0, refusal }
    }

    fn length() -> Fault {
        Fault { section: Section::Whole, line: 0, field: 0, refusal: Refusal::SheetLength }
    }
}

/// Reads a whole sheet, or tells the first thing that is wrong in it.
pub fn parse(text: &[u8]) -> Result<Sheet, Fault> {
    if text.len() > MOST_BYTES {
        return Err(Fault::length());
    }
    let mut reader = Reader { rest: text, section: Section::Premise, line: 0 };
    reader.count_line(b"PREMISE", 1..=1)?;
    let opening = reader.opening()?;
    reader.section = Section::Calls;
    let count = reader.count_line(b"CALLS", 0..=MOST_CALLS)?;
    let calls = (0..count).map(|_| reader.call()).collect::<Result<_, _>>()?;
    if !reader.rest.is_empty() {
        return Err(Fault::length());
    }
    Ok(Sheet { opening, calls })
}

/// Goes through a sheet line by line.
struct Reader<'a> {
    rest: &'a [u8],
    section: Section,
    /// The number of the line read last.
    line: u32,
}

impl<'a> Reader<'a> {
    fn fault(&self, field: u32, refusal: Refusal) -> Fault {
        Fault { section: self.section, line: self.line, field, refusal }
    }

    /// The next line, without its LF. A line that has none is missing.
    fn next_line(&mut self) -> Result<&'a [u8], Fault> {
        self.line += 1;
        let Some(end) = self.rest.iter().position(|&byte| byte == b'\n') else {
            return Err(self.fault(0, Refusal::CountOrMissingLine));
        };
        let line = &self.rest[..end];
        self.rest = &self.rest[end + 1..];
        Ok(line)
    }

    fn count_line(&mut self, name: &[u8], range: RangeInclusive<u32>) -> Result<u32, Fault> {
        let line = self.next_line()?;
        fields(line)
            .filter(|[_, word]| *word == name)
            .and_then(|[count, _]| number(count))
            .filter(|count| range.contains(count))
            .ok_or_else(|| self.fault(0, Refusal::CountOrMissingLine))
    }

    fn opening(&mut self) -> Result<Opening, Fault> {
        let line = self.next_line()?;
        let [rate, digits, day, register, customer] = self.fields(line)?;
        Ok(Opening {
            rate: Rate::from_name(rate).ok_or_else(|| self.fault(1, Refusal::Field))?,
            digits: self.number(2, digits)?,
            day: self.number(3, day)?,
            register: self.number(4, register)?,
            customer: self.number(5, customer)?,
        })
    }

    fn call(&mut self) -> Result<Call, Fault> {
        let line = self.next_line()?;
        match line.split(|&byte| byte == b' ').next() {
            Some(b"R") => {
                let [_, day, register] = self.fields(line)?;
                let day = self.number(2, day)?;
                let register = self.number(3, register)?;
                Ok(Call::Read { day, register })
            }
            Some(b"M") => {
                let [_, day] = self.fields(line)?;
                let day = self.number(2, day)?;
                Ok(Call::Miss { day })
            }
            Some(b"C") => {
                let [_, customer] = self.fields(line)?;
                let customer = self.number(2, customer)?;
                Ok(Call::Move { customer })
            }
            _ => Err(self.fault(0, Refusal::LineForm)),
        }
    }

    fn fields<const N: usize>(&self, line: &'a [u8]) -> Result<[&'a [u8]; N], Fault> {
        fields(line).ok_or_else(|| self.fault(0, Refusal::LineForm))
    }

    fn number(&self, place: u32, field: &[u8]) -> Result<u32, Fault> {
        number(field).ok_or_else(|| self.fault(place, Refusal::Field))
    }
}

/// The fields of a line, if it has exactly so many. Every single space parts two fields.
fn fields<const N: usize>(line: &[u8]) -> Option<[&[u8]; N]> {
    let mut parts = line.split(|&byte| byte == b' ');
    let mut fields = [line; N];
    for field in &mut fields {
        *field = parts.next()?;
    }
    parts.next().is_none().then_some(fields)
}

/// A number of 32 bits in decimal digits, with no leading zero.
fn number(field: &[u8]) -> Option<u32> {
    match field {
        [b'0'] => Some(0),
        [b'1'..=b'9', ..] => field.iter().try_fold(0u32, |value, byte| match byte {
            b'0'..=b'9' => value.checked_mul(10)?.checked_add(u32::from(byte - b'0')),
            _ => None,
        }),
        _ => None,
    }
}

#[cfg(test)]
mod tests {
    use super::*;

    fn fault(text: &str) -> (Section, u32, u32, u32) {
        let fault = parse(text.as_bytes()).expect_err("the sheet is wrong");
        (fault.section, fault.line, fault.field, fault.refusal.number())
    }

    fn call_fault(line: &str) -> (Section, u32, u32, u32) {
        fault(&format!("1 PREMISE\nE-12 5 0 0 7\n2 CALLS\nM 8\n{line}\n"))
    }

    #[test]
    fn numbers_have_one_form() {
        assert_eq!(number(b"0"), Some(0));
        assert_eq!(number(b"4294967295"), Some(u32::MAX));
        for field in ["", "00", "01", "+1", "-1", "4294967296", "42949672950", "1\r", "1x", "x"] {
            assert_eq!(number(field.as_bytes()), None, "{field}");
        }
    }

    #[test]
    fn length_comes_first() {
        assert_eq!(fault(""), (Section::Premise, 1, 0, 8));
        assert_eq!(fault(&"x".repeat(8_192)), (Section::Premise, 1, 0, 8));
        assert_eq!(fault(&"x".repeat(8_193)), (Section::Whole, 0, 0, 9));
    }

    #[test]
    fn count_lines() {
        for line in ["0 PREMISE", "2 PREMISE", "01 PREMISE", "1 premise", "1  PREMISE", "1 PREMISE "] {
            assert_eq!(fault(&format!("{line}\n")), (Section::Premise, 1, 0, 8), "{line}");
        }
        for line in ["241 CALLS", "00 CALLS", "0 CALL", "0 CALLS 0", "0\tCALLS", "", "0 CALLS\r"] {
            let sheet = format!("1 PREMISE\nE-12 5 0 0 7\n{line}\n");
            assert_eq!(fault(&sheet), (Section::Calls, 3, 0, 8), "{line}");
        }
    }

    #[test]
    fn missing_lines() {
        assert_eq!(fault("1 PREMISE"), (Section::Premise, 1, 0, 8));
        assert_eq!(fault("1 PREMISE\n"), (Section::Premise, 2, 0, 8));
        assert_eq!(fault("1 PREMISE\nE-12 5 0 0 7"), (Section::Premise, 2, 0, 8));
        assert_eq!(fault("1 PREMISE\nE-12 5 0 0 7\n"), (Section::Calls, 3, 0, 8));
        assert_eq!(fault("1 PREMISE\nE-12 5 0 0 7\n1 CALLS\n"), (Section::Calls, 4, 0, 8));
        assert_eq!(fault("1 PREMISE\nE-12 5 0 0 7\n1 CALLS\nx x x"), (Section::Calls, 4, 0, 8));
    }

    #[test]
    fn the_premise_line() {
        let premise_fault = |line: &str| fault(&format!("1 PREMISE\n{line}\n"));
        assert_eq!(premise_fault(""), (Section::Premise, 2, 0, 7));
        assert_eq!(premise_fault("E-99 5 0 0"), (Section::Premise, 2, 0, 7));
        assert_eq!(premise_fault("E-12 5 0 0 7 "), (Section::Premise, 2, 0, 7));
        assert_eq!(premise_fault("e-12 x 0 0 7"), (Section::Premise, 2, 1, 6));
        assert_eq!(premise_fault("E-12 x 0 x 7"), (Section::Premise, 2, 2, 6));
        assert_eq!(premise_fault("E-12 5 0 0 "), (Section::Premise, 2, 5, 6));
    }

    #[test]
    fn call_lines() {
        assert_eq!(call_fault(""), (Section::Calls, 5, 0, 7));
        assert_eq!(call_fault("r 1 1"), (Section::Calls, 5, 0, 7));
        assert_eq!(call_fault("RR 1 1"), (Section::Calls, 5, 0, 7));
        assert_eq!(call_fault("R x"), (Section::Calls, 5, 0, 7));
        assert_eq!(call_fault("M  108"), (Section::Calls, 5, 0, 7));
        assert_eq!(call_fault("M"), (Section::Calls, 5, 0, 7));
        assert_eq!(call_fault("M "), (Section::Calls, 5, 2, 6));
        assert_eq!(call_fault("M 8\r"), (Section::Calls, 5, 2, 6));
        assert_eq!(call_fault("C 08"), (Section::Calls, 5, 2, 6));
        assert_eq!(call_fault("R 8 4294967296"), (Section::Calls, 5, 3, 6));
        assert_eq!(call_fault("R 4294967296 x"), (Section::Calls, 5, 2, 6));
    }

    #[test]
    fn bytes_after_the_last_line() {
        assert_eq!(call_fault("M 9\n"), (Section::Whole, 0, 0, 9));
        assert_eq!(call_fault("M 9\n "), (Section::Whole, 0, 0, 9));
    }

    #[test]
    fn a_good_sheet() {
        let sheet = parse(b"1 PREMISE\nECT-1R 8 1 2 3\n3 CALLS\nR 4294967295 0\nM 5\nC 6\n");
        let opening = Opening { rate: Rate::Ect1R, digits: 8, day: 1, register: 2, customer: 3 };
        let calls = vec![
            Call::Read { day: u32::MAX, register: 0 },
            Call::Miss { day: 5 },
            Call::Move { customer: 6 },
        ];
        assert_eq!(sheet, Ok(Sheet { opening, calls }));
    }
}
