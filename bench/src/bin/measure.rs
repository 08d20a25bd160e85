//! Measures the library and the plain implementation on the same inputs, by turns.

#![deny(unsafe_code)]

use std::env;
use std::hint::black_box;
use std::io::{self, Write};
use std::path::{Path, PathBuf};
use std::process::{Command, ExitCode, Stdio};
use std::time::{Duration, Instant};

use bench::generate::{DemandCase, EstimateCase, FillCase, Habit, ShareCase, history, write_sheet};
use bench::header::{Interval, Portion};
use bench::plain;
use bench::plain::file::PremiseFile;
use bench::plain::rate::Rate;
use bench::plain::{demand, intervals, sharing};
use bench::random::Random;

#[allow(unsafe_code)]
#[path = "../library.rs"]
mod library;

const USAGE: &str = "usage: measure [--program PATH]";
const PROGRAM: &str = concat!(env!("CARGO_MANIFEST_DIR"), "/../crates/pekstuvna/out/pekstuvna");

const SEED: u64 = 1;
const ROUNDS: u32 = 15;
const LISTING_BYTES: usize = 16_384;
const RUNS_OF_PROGRAM: u32 = 200;

fn main() -> ExitCode {
    let mut words = env::args().skip(1);
    let program = match (words.next().as_deref(), words.next(), words.next()) {
        (None, ..) => PathBuf::from(PROGRAM),
        (Some("--program"), Some(path), None) => PathBuf::from(path),
        _ => {
            eprintln!("{USAGE}");
            return ExitCode::from(2);
        }
    };
    println!("Best of {ROUNDS} rounds, the library and the plain implementation by turns in each.");
    println!("Buffers are not cleared between calls. Figures are for one input of its sort.");
    if cfg!(debug_assertions) {
        println!("NOT BUILT FOR RELEASE: the plain figures mean nothing.");
    }
    println!();
    println!("{:34} {:>13} {:>13} {:>14}", "", "library", "plain", "library/plain");
    measure_mixed_sheets();
    for calls in [10, 60, 240] {
        measure_sheets_of(calls);
    }
    measure_sharing();
    measure_estimates();
    measure_filling();
    measure_demand();
    match measure_program(&program) {
        Ok(()) => ExitCode::SUCCESS,
        Err(error) => {
            println!("whole program: not measured, {}: {error}", program.display());
            ExitCode::FAILURE
        }
    }
}

/// The best time of each for the same inputs.
struct Times {
    library: Duration,
    plain: Duration,
}

impl Times {
    fn of(rounds: u32, mut library: impl FnMut() -> Duration, mut plain: impl FnMut() -> Duration) -> Times {
        let mut best = Times { library: Duration::MAX, plain: Duration::MAX };
        for round in 0..rounds {
            // Neither is always the first.
            if round % 2 == 0 {
                best.library = best.library.min(library());
                best.plain = best.plain.min(plain());
            } else {
                best.plain = best.plain.min(plain());
                best.library = best.library.min(library());
            }
        }
        best
    }

    fn ratio(&self) -> f64 {
        self.library.as_secs_f64() / self.plain.as_secs_f64()
    }

    fn print(&self, name: &str, inputs: usize) {
        let each = |time: Duration| {
            let nanoseconds = time.as_secs_f64() * 1e9 / inputs as f64;
            match nanoseconds {
                ..1e3 => format!("{nanoseconds:.2} ns"),
                ..1e6 => format!("{:.2} us", nanoseconds / 1e3),
                _ => format!("{:.2} ms", nanoseconds / 1e6),
            }
        };
        self.print_row(name, &each(self.library), &each(self.plain));
    }

    fn print_rate(&self, name: &str, inputs: usize) {
        let rate = |time: Duration| format!("{:.0} /s", inputs as f64 / time.as_secs_f64());
        self.print_row(name, &rate(self.library), &rate(self.plain));
    }

    fn print_row(&self, name: &str, library: &str, plain: &str) {
        println!("{name:34} {library:>13} {plain:>13} {:>14.2}", self.ratio());
    }
}

fn timed(work: impl FnOnce()) -> Duration {
    let start = Instant::now();
    work();
    start.elapsed()
}

/// So many sheets that are played, of a habit.
fn sheets(count: usize, habit: impl Fn(&mut Random) -> Habit) -> Vec<Vec<u8>> {
    (0..)
        .map(|case| history(&mut Random::of_case(SEED, case), &habit))
        .filter(|sheet| PremiseFile::open(&sheet.opening).is_ok())
        .take(count)
        .map(|sheet| {
            let mut text = Vec::new();
            write_sheet(&mut text, &sheet);
            text
        })
        .collect()
}

fn time_sheets(sheets: &[Vec<u8>]) -> Times {
    let mut buffer = vec![0; LISTING_BYTES];
    for sheet in sheets {
        let bytes = library::list_sheet(sheet, &mut buffer).expect("the buffer is long enough");
        assert!(buffer[..bytes] == plain::list_sheet(sheet), "the two do not agree: see `compare`");
    }
    let library = || {
        timed(|| {
            for sheet in sheets {
                let _ = black_box(library::list_sheet(black_box(sheet), &mut buffer));
            }
        })
    };
    let plain = || {
        timed(|| {
            for sheet in sheets {
                black_box(plain::list_sheet(black_box(sheet)));
            }
        })
    };
    Times::of(ROUNDS, library, plain)
}

fn measure_mixed_sheets() {
    let sheets = sheets(2_000, Habit::any);
    time_sheets(&sheets).print_rate("2,000 mixed sheets, a second", sheets.len());
}

fn measure_sheets_of(calls: u32) {
    let sheets = sheets(200, |_| Habit::usual(calls));
    time_sheets(&sheets).print(&format!("sheet of {calls} calls"), sheets.len());
}

fn measure_sharing() {
    const TIMES: usize = 50;
    let ShareCase { total, portions } = ShareCase::largest(&mut Random::of_case(SEED, 0));
    let mut library: Vec<Portion> = portions.clone();
    let mut plain: Vec<sharing::Portion> = portions.iter().map(|portion| portion.plain()).collect();
    let times = Times::of(
        ROUNDS,
        || {
            timed(|| {
                for _ in 0..TIMES {
                    let _ = black_box(library::share_out(black_box(total), black_box(&mut library)));
                }
            })
        },
        || {
            timed(|| {
                for _ in 0..TIMES {
                    let _ = black_box(plain::share_out(black_box(total), black_box(&mut plain)));
                }
            })
        },
    );
    assert!(library.iter().zip(&plain).all(|(library, plain)| library.share == plain.share));
    times.print("3,360 records shared", TIMES);
}

fn measure_estimates() {
    let cases: Vec<EstimateCase> =
        (0..1_000).map(|case| EstimateCase::new(&mut Random::of_case(SEED, case))).collect();
    let times = Times::of(
        ROUNDS,
        || {
            timed(|| {
                for case in &cases {
                    let EstimateCase { kwh, days, usage_days } = *black_box(case);
                    let _ = black_box(library::estimate(kwh, days, usage_days));
                }
            })
        },
        || {
            timed(|| {
                for case in &cases {
                    let EstimateCase { kwh, days, usage_days } = *black_box(case);
                    let _ = black_box(plain::estimate(kwh, days, usage_days));
                }
            })
        },
    );
    times.print("estimate", cases.len());
}

fn measure_filling() {
    const TIMES: usize = 50;
    let case = FillCase::of_slots(&mut Random::of_case(SEED, 0), 96, 35, 33);
    let FillCase { month, weekday, weekend, holidays, intervals } = &case;
    let plain_month = month.plain(weekday, weekend, holidays);
    let plain_intervals: Vec<intervals::Interval> =
        intervals.iter().map(|interval| interval.plain()).collect();
    // Filling changes the marks, so each call has a month of its own, made outside of the time.
    let mut library: Vec<Vec<Interval>> = Vec::new();
    let mut plain: Vec<Vec<intervals::Interval>> = Vec::new();
    let times = Times::of(
        ROUNDS,
        || {
            library = vec![intervals.clone(); TIMES];
            timed(|| {
                for intervals in &mut library {
                    let filled =
                        library::fill(black_box(month), weekday, weekend, holidays, black_box(intervals));
                    let _ = black_box(filled);
                }
            })
        },
        || {
            plain = vec![plain_intervals.clone(); TIMES];
            timed(|| {
                for intervals in &mut plain {
                    let _ = black_box(plain::fill(black_box(&plain_month), black_box(intervals)));
                }
            })
        },
    );
    let filled: Vec<Interval> = plain[0].iter().map(|interval| Interval::from(*interval)).collect();
    assert!(library[0] == filled, "the two do not agree: see `compare`");
    times.print("35 days of 96 intervals filled", TIMES);
}

fn measure_demand() {
    let cases: Vec<DemandCase> =
        (0..200).map(|case| DemandCase::of_entries(&mut Random::of_case(SEED, case), 240)).collect();
    let plain_cases: Vec<(Vec<demand::Reading>, demand::Period)> = cases
        .iter()
        .map(|case| {
            let book = case.book.iter().map(|reading| reading.plain()).collect();
            let rate = Rate::from_name(&case.rate).expect("the case has a rate");
            (book, case.period.plain(rate))
        })
        .collect();
    let times = Times::of(
        ROUNDS,
        || {
            let mut tenths = 0;
            timed(|| {
                for case in &cases {
                    let answer =
                        library::demand(black_box(&case.book), &case.period, &case.rate, &mut tenths);
                    let _ = black_box(answer);
                }
            })
        },
        || {
            timed(|| {
                for (book, period) in &plain_cases {
                    let _ = black_box(plain::demand(black_box(book), period));
                }
            })
        },
    );
    times.print("demand on a book of 240", cases.len());
}

/// One sheet through a whole program, from its start to its end.
fn measure_program(program: &Path) -> io::Result<()> {
    const ROUNDS_OF_RUNS: u32 = 10;
    let sheet = sheets(1, |_| Habit::usual(60)).remove(0);
    let plain_program = env::current_exe()?.with_file_name("plain");
    let listing = plain::list_sheet(&sheet);
    for path in [program, &plain_program] {
        if run(path, &sheet)? != listing {
            return Err(io::Error::other(format!("{} prints another listing", path.display())));
        }
    }
    let runs = RUNS_OF_PROGRAM / ROUNDS_OF_RUNS;
    let time = |path: &Path| {
        timed(|| {
            for _ in 0..runs {
                // It ran before, so it is there.
                let _ = black_box(run(path, &sheet));
            }
        })
    };
    let times = Times::of(ROUNDS_OF_RUNS, || time(program), || time(&plain_program));
    times.print("whole program, sheet of 60 calls", runs as usize);
    Ok(())
}

fn run(program: &Path, sheet: &[u8]) -> io::Result<Vec<u8>> {
    let mut child = Command::new(program).stdin(Stdio::piped()).stdout(Stdio::piped()).spawn()?;
    if let Some(mut input) = child.stdin.take() {
        input.write_all(sheet)?;
    }
    Ok(child.wait_with_output()?.stdout)
}
