//! Puts random inputs to the library and to the plain implementation, and compares what comes out, byte for byte.

#![deny(unsafe_code)]

use std::env;
use std::fmt::Debug;
use std::io::{self, Write};
use std::process::ExitCode;
use std::time::Instant;

use bench::generate::{
    self, DemandCase, EstimateCase, FillCase, MUTATED_FROM, OTHERS_FROM, Other, ShareCase,
};
use bench::header::{Interval, Portion};
use bench::plain;
use bench::plain::Refusal;
use bench::plain::rate::Rate;
use bench::tally::{Group, Tally};

#[allow(unsafe_code)]
#[path = "../library.rs"]
mod library;

const USAGE: &str = "\
usage: compare [--sheets N] [--mutated N] [--others N] [--seed S]
       compare --case I [--seed S]";

/// A run stops after so many differences.
const MOST_DIFFERENCES: u32 = 5;

/// The fewest bytes of the buffer for a listing.
const LISTING_BYTES: usize = 16_384;

/// Bytes before and behind each buffer that the library is lent, which it may not write.
const GUARD: usize = 64;

struct Options {
    sheets: u64,
    mutated: u64,
    others: u64,
    seed: u64,
    case: Option<u64>,
}

impl Options {
    fn parse(mut words: impl Iterator<Item = String>) -> Option<Options> {
        let mut options =
            Options { sheets: 1_000_000, mutated: 1_000_000, others: 200_000, seed: 1, case: None };
        while let Some(word) = words.next() {
            let number = words.next()?.parse().ok()?;
            match word.as_str() {
                "--sheets" => options.sheets = number,
                "--mutated" => options.mutated = number,
                "--others" => options.others = number,
                "--seed" => options.seed = number,
                "--case" => options.case = Some(number),
                _ => return None,
            }
        }
        Some(options)
    }
}

fn main() -> ExitCode {
    let Some(options) = Options::parse(env::args().skip(1)) else {
        eprintln!("{USAGE}");
        return ExitCode::from(2);
    };
    let mut comparison = Comparison::new(options.seed);
    let good = match options.case {
        Some(case) => comparison.show(case),
        None => comparison.run(&options),
    };
    if good { ExitCode::SUCCESS } else { ExitCode::FAILURE }
}

/// What the two made of one input, where it is not the same.
struct Difference {
    input: String,
    library: String,
    plain: String,
}

impl Difference {
    fn new(input: &impl Debug, library: &impl Debug, plain: &impl Debug) -> Difference {
        Difference {
            input: format!("{input:?}"),
            library: format!("{library:?}"),
            plain: format!("{plain:?}"),
        }
    }

    fn of_listings(sheet: &[u8], library: &Result<&[u8], u32>, plain: &[u8]) -> Difference {
        let library = match library {
            Ok(bytes) => readable(bytes),
            Err(number) => format!("refused by {number}"),
        };
        Difference { input: readable(sheet), library, plain: readable(plain) }
    }

    fn print(&self, seed: u64, case: u64) {
        println!("DIFFERENCE in case {case} of seed {seed}: compare --case {case} --seed {seed}");
        println!("--- input\n{}\n--- library\n{}\n--- plain\n{}", self.input, self.library, self.plain);
    }
}

/// A text with its lines as they are, and all bytes that are not printed told by their numbers.
fn readable(bytes: &[u8]) -> String {
    bytes.escape_ascii().to_string().replace("\\n", "\\n\n")
}

struct Comparison {
    seed: u64,
    tally: Tally,
    differences: u32,
    sheet: Vec<u8>,
    lent: Lent,
}

impl Comparison {
    fn new(seed: u64) -> Comparison {
        Comparison {
            seed,
            tally: Tally::default(),
            differences: 0,
            sheet: Vec::new(),
            lent: Lent::new(2 * LISTING_BYTES),
        }
    }

    /// Runs all cases. Answers whether the two were the same throughout, and all was hit that should be.
    fn run(&mut self, options: &Options) -> bool {
        println!("seed {}", self.seed);
        let families = [
            ("sheets", 0, options.sheets),
            ("mutated sheets", MUTATED_FROM, options.mutated),
            ("other inputs", OTHERS_FROM, options.others),
        ];
        for (name, first, count) in families {
            let start = Instant::now();
            for case in first..first + count {
                if let Err(difference) = self.compare(case) {
                    difference.print(self.seed, case);
                    self.differences += 1;
                    if self.differences == MOST_DIFFERENCES {
                        println!("stopped after {MOST_DIFFERENCES} differences");
                        return false;
                    }
                }
            }
            println!("{count} {name} compared in {:.1} s", start.elapsed().as_secs_f64());
        }
        self.tally.print();
        let never = self.tally.never_occurred(options.sheets, options.others);
        for name in &never {
            println!("NEVER OCCURRED: {name}");
        }
        let unheard_of = self.tally.unheard_of();
        if unheard_of > 0 {
            println!("OCCURRED THOUGH IT CANNOT: {unheard_of} times");
        }
        println!("{} differences", self.differences);
        self.differences == 0 && never.is_empty() && unheard_of == 0
    }

    /// Prints the input of one case and what the two make of it. Answers whether it is the same.
    fn show(&mut self, case: u64) -> bool {
        let result = self.compare(case);
        if case < OTHERS_FROM {
            let plain = plain::list_sheet(&self.sheet);
            print_bytes("sheet", &self.sheet);
            print_bytes("plain", &plain);
        } else {
            println!("{:?}", generate::other(self.seed, case));
        }
        match result {
            Ok(()) => println!("no difference in case {case} of seed {}", self.seed),
            Err(ref difference) => difference.print(self.seed, case),
        }
        result.is_ok()
    }

    fn compare(&mut self, case: u64) -> Result<(), Difference> {
        if case < OTHERS_FROM {
            generate::sheet(self.seed, case, &mut self.sheet);
            let plain = plain::list_sheet(&self.sheet);
            self.lent.compare_listing(&self.sheet, LISTING_BYTES, Ok(&plain))?;
            self.tally.add_listing(&self.sheet, &plain);
            return Ok(());
        }
        match generate::other(self.seed, case) {
            Other::Share(case) => self.compare_sharing(&case),
            Other::Estimate(case) => self.compare_estimate(&case),
            Other::Fill(case) => self.compare_filling(&case),
            Other::Demand(case) => self.compare_demand(&case),
            Other::Buffer { sheet, length } => {
                let listing = plain::list_sheet(&sheet);
                let plain = if length < LISTING_BYTES { Err(10) } else { Ok(&listing[..]) };
                self.lent.compare_listing(&sheet, length, plain)?;
                self.tally.add(Group::Buffer, plain.err().unwrap_or(0));
                Ok(())
            }
        }
    }

    fn compare_sharing(&mut self, case: &ShareCase) -> Result<(), Difference> {
        let mut library = case.portions.clone();
        let library_answer = library::share_out(case.total, &mut library);
        let mut plain: Vec<_> = case.portions.iter().map(|portion| portion.plain()).collect();
        let plain_answer = plain::share_out(case.total, &mut plain).map(|()| 0).map_err(Refusal::number);
        // Only shares are written.
        let plain: Vec<Portion> = case
            .portions
            .iter()
            .zip(&plain)
            .map(|(before, after)| Portion { share: after.share, ..*before })
            .collect();
        same(case, &(library_answer, library), &(plain_answer, plain))?;
        self.tally.add(Group::Share, number_of(library_answer));
        Ok(())
    }

    fn compare_estimate(&mut self, case: &EstimateCase) -> Result<(), Difference> {
        let EstimateCase { kwh, days, usage_days } = *case;
        let library = library::estimate(kwh, days, usage_days);
        let plain = plain::estimate(kwh, days, usage_days).map_err(Refusal::number);
        same(case, &library, &plain)?;
        self.tally.add(Group::Estimate, library.err().unwrap_or(0));
        Ok(())
    }

    fn compare_filling(&mut self, case: &FillCase) -> Result<(), Difference> {
        let FillCase { month, weekday, weekend, holidays, intervals } = case;
        let mut library = intervals.clone();
        let library_answer = library::fill(month, weekday, weekend, holidays, &mut library);
        let mut plain: Vec<_> = intervals.iter().map(|interval| interval.plain()).collect();
        let plain_answer = plain::fill(&month.plain(weekday, weekend, holidays), &mut plain)
            .map(|filled| filled as u32)
            .map_err(Refusal::number);
        let plain: Vec<Interval> = match plain_answer {
            Ok(_) => plain.into_iter().map(Interval::from).collect(),
            Err(_) => intervals.clone(),
        };
        same(case, &(library_answer, library), &(plain_answer, plain))?;
        self.tally.add(Group::Fill, number_of(library_answer.map(|_| 0)));
        Ok(())
    }

    fn compare_demand(&mut self, case: &DemandCase) -> Result<(), Difference> {
        const NOT_WRITTEN: u64 = 0x5a5a_a5a5_1234_8765;
        let DemandCase { book, period, rate } = case;
        let mut library = NOT_WRITTEN;
        let library_answer = library::demand(book, period, rate, &mut library);
        let book: Vec<_> = book.iter().map(|reading| reading.plain()).collect();
        let answer = Rate::from_name(rate)
            .ok_or(Refusal::Field)
            .and_then(|rate| plain::demand(&book, &period.plain(rate)));
        let plain = answer.map_or(NOT_WRITTEN, |demand| demand.tenths);
        let plain_answer = answer.map(|demand| demand.source as u32).map_err(Refusal::number);
        same(case, &(library_answer, library), &(plain_answer, plain))?;
        match library_answer {
            Ok(answer) => self.tally.add(Group::Demand, answer),
            Err(refusal) => self.tally.add(Group::DemandRefused, refusal),
        }
        Ok(())
    }
}

fn same<T: PartialEq + Debug>(input: &impl Debug, library: &T, plain: &T) -> Result<(), Difference> {
    if library == plain { Ok(()) } else { Err(Difference::new(input, library, plain)) }
}

/// An answer's number, whether accepted or refused.
fn number_of(answer: Result<u32, u32>) -> u32 {
    answer.unwrap_or_else(|refusal| refusal)
}

fn print_bytes(name: &str, bytes: &[u8]) {
    println!("--- {name}, {} bytes", bytes.len());
    // Nothing is left to do about an output that cannot be written.
    let _ = io::stdout().write_all(bytes);
    println!();
}

/// The memory for listings, filled with a pattern before each call.
struct Lent {
    pattern: Vec<u8>,
    bytes: Vec<u8>,
}

impl Lent {
    fn new(most: usize) -> Lent {
        let pattern: Vec<u8> = (0..most + 2 * GUARD).map(|place| (place % 251) as u8 ^ 0xa5).collect();
        Lent { bytes: pattern.clone(), pattern }
    }

    /// Compares the listing by the library, in a buffer of that length, with what is expected. The bytes before and
    /// behind it must be as they were.
    fn compare_listing(
        &mut self,
        sheet: &[u8],
        length: usize,
        plain: Result<&[u8], u32>,
    ) -> Result<(), Difference> {
        let all = length + 2 * GUARD;
        let (bytes, pattern) = (&mut self.bytes[..all], &self.pattern[..all]);
        bytes.copy_from_slice(pattern);
        let answer = library::list_sheet(sheet, &mut bytes[GUARD..GUARD + length]);
        let library = answer.map(|written| &bytes[GUARD..GUARD + written.min(length)]);
        let written = library.map_or(0, <[u8]>::len);
        if library != plain {
            return Err(Difference::of_listings(sheet, &library, plain.unwrap_or_default()));
        }
        if bytes[..GUARD] != pattern[..GUARD] || bytes[GUARD + written..] != pattern[GUARD + written..] {
            let mut difference = Difference::of_listings(sheet, &library, plain.unwrap_or_default());
            difference.library.push_str("\n(and bytes beyond the answer were written)");
            return Err(difference);
        }
        Ok(())
    }
}
