//! The rules of `docs/RULES.md` and `docs/SHEETS.md` as a plain Rust program.
//!
//! It was written from those two documents alone, so that a mistake in the library is not repeated here.

pub mod calendar;
pub mod demand;
pub mod dial;
pub mod file;
pub mod intervals;
pub mod ladder;
pub mod listing;
pub mod rate;
pub mod sharing;
pub mod sheet;

pub use demand::demand;
pub use intervals::fill;
pub use ladder::estimate;
pub use sharing::share_out;

use file::PremiseFile;
use sheet::{Fault, Sheet};

/// Why something is refused. Each refusal has its number in the table of `docs/RULES.md`.
///
/// The file owns its book and a listing its text, so 5, 10 and 11 do not come up here.
#[derive(Clone, Copy, Debug, PartialEq, Eq)]
pub enum Refusal {
    Digits = 1,
    Day = 2,
    Register = 3,
    Customer = 4,
    Field = 6,
    LineForm = 7,
    CountOrMissingLine = 8,
    SheetLength = 9,
    PeriodLength = 12,
    BookFull = 13,
    NoAnswer = 14,
    EstimateTooHigh = 15,
    MoveWhileOpen = 16,
    MoveToSameCustomer = 17,
    Slots = 21,
    IntervalCount = 22,
    Reference = 23,
    Holidays = 24,
    Interval = 25,
    NothingMissing = 26,
    ValidAboveTotal = 27,
    NoWeights = 28,
    SharingLimits = 29,
    BasisBounds = 30,
    DemandBook = 31,
    DemandQuestion = 32,
}

impl Refusal {
    pub fn number(self) -> u32 {
        self as u32
    }
}

/// Refuses a customer 0.
fn check_customer(customer: u32) -> Result<(), Refusal> {
    if customer == 0 {
        return Err(Refusal::Customer);
    }
    Ok(())
}

/// Plays a sheet, and answers its listing, or the one line that tells why the sheet is refused.
pub fn list_sheet(text: &[u8]) -> Vec<u8> {
    match play_sheet(text) {
        Ok(listing) => listing,
        Err(fault) => listing::fault_line(&fault),
    }
}

fn play_sheet(text: &[u8]) -> Result<Vec<u8>, Fault> {
    let Sheet { opening, calls } = sheet::parse(text)?;
    let mut file = PremiseFile::open(&opening).map_err(Fault::opening)?;
    let answers: Vec<_> = calls.into_iter().map(|call| file.play(call)).collect();
    Ok(listing::listing(&answers, file.entries()))
}

#[cfg(test)]
mod tests {
    use super::list_sheet;

    const SHEET: &str = "\
1 PREMISE
E-12 5 100 99500 7
9 CALLS
M 108
M 138
R 168 800
M 198
R 228 900
C 8
M 259
R 259 950
R 290 1000
";

    const LISTING: &str = "\
9 ANSWERS
M 4 0 0
M 3 7 950
R 2 350 0
M 3 1 350
R 1 50 1
C
M 3 4 51
N 12
R 1 50 1
7 ENTRIES
7 108 8 0 4 0 1 0
7 138 30 38 3 7 0 950
7 168 30 30 2 0 0 350
7 198 30 30 5 0 0 50
7 228 30 30 1 0 0 50
8 259 31 31 5 0 1 50
8 290 31 31 1 0 0 50
";

    fn list(text: &str) -> String {
        String::from_utf8(list_sheet(text.as_bytes())).expect("a listing is plain text")
    }

    #[test]
    fn the_worked_sheet_has_its_listing() {
        assert_eq!(list(SHEET), LISTING);
    }

    #[test]
    fn a_sheet_without_calls_lists_nothing() {
        let sheet = "1 PREMISE\nOTHER 8 36524 99999999 4294967295\n0 CALLS\n";
        assert_eq!(list(sheet), "0 ANSWERS\n0 ENTRIES\n");
    }

    #[test]
    fn a_refused_opening_is_told_at_the_premise() {
        let open = |premise: &str| list(&format!("1 PREMISE\n{premise}\n0 CALLS\n"));
        assert_eq!(open("E-12 3 36525 1000 0"), "X P 2 0 1\n");
        assert_eq!(open("E-12 9 36525 1000 0"), "X P 2 0 1\n");
        assert_eq!(open("E-12 4 36525 10000 0"), "X P 2 0 2\n");
        assert_eq!(open("E-12 4 36524 10000 0"), "X P 2 0 3\n");
        assert_eq!(open("E-12 4 36524 9999 0"), "X P 2 0 4\n");
    }
}
