//! The program `compare_vectors`: random jobs as vector lines with the model's answers, through the
//! proved program `vectors`, which runs each through the library and tells which differ.
//!
//! It links nothing. A line that the program would not read whole is counted and told, not run.

#![forbid(unsafe_code)]

mod chunk;
mod lines;

use chunk::Chunk;
use reference::vectors::KINDS;
use std::process::ExitCode;

/// The refusals' numbers are up to 11, and 0 is none.
const OUTCOMES: usize = 12;

/// How many lines of each kind agreed, by the refusal that they name, and how many were too long.
#[derive(Default)]
struct Tally {
    agreed: [[u64; OUTCOMES]; KINDS.len()],
    too_long: [u64; KINDS.len()],
}

fn main() -> ExitCode {
    let arguments: Vec<String> = std::env::args().skip(1).collect();
    let numbers: Result<Vec<u64>, _> = arguments.iter().map(|word| word.parse()).collect();
    let (jobs, seed) = match numbers.as_deref() {
        Ok([]) => (5_000, 1),
        Ok([jobs]) => (*jobs, 1),
        Ok([jobs, seed]) => (*jobs, *seed),
        _ => {
            eprintln!(
                "usage: compare_vectors [JOBS [SEED]]    both numbers; 5000 and 1 if left out"
            );
            return ExitCode::from(2);
        }
    };
    match compare(jobs, seed) {
        Ok(tally) => {
            print!("{jobs} jobs from seed {seed}, {}", tally.report());
            ExitCode::SUCCESS
        }
        Err(disagreement) => {
            print!("the model and the library disagree on a job of seed {seed}\n{disagreement}");
            ExitCode::FAILURE
        }
    }
}

/// Runs the lines of so many jobs, up to the first chunk in which some differ.
fn compare(jobs: u64, seed: u64) -> Result<Tally, String> {
    let mut tally = Tally::default();
    let mut chunk = Chunk::default();
    let mut seeds = generate::Random::new(seed);
    for _ in 0..jobs {
        let case_seed = seeds.number();
        let lines = std::panic::catch_unwind(|| lines::lines(case_seed))
            .map_err(|_| format!("the model stopped on case seed {case_seed}\n"))?;
        for line in lines {
            if !line.fits() {
                tally.too_long[line.kind] += 1;
                continue;
            }
            tally.agreed[line.kind][line.refusal() as usize] += 1;
            if !chunk.has_room_for(&line) {
                std::mem::take(&mut chunk).run()?;
            }
            chunk.push(line, case_seed);
        }
    }
    chunk.run()?;
    Ok(tally)
}

impl Tally {
    /// A line that says how many agreed, and a table of what they name.
    fn report(&self) -> String {
        let kinds = 0..KINDS.len();
        let sum = |kind: usize| self.agreed[kind].iter().sum::<u64>();
        let agreed: Vec<String> =
            kinds.clone().map(|kind| format!("{} {}", KINDS[kind], sum(kind))).collect();
        let too_long = self.too_long.iter().sum::<u64>();
        let mut report = format!("through the proved program vectors: {} agree", agreed.join(", "));
        report.push_str(&format!(", none differs; {too_long} lines were too long for it\n"));
        report.push_str(&row("", KINDS.map(str::to_string)));
        for outcome in 0..OUTCOMES {
            let name =
                if outcome == 0 { "answered".into() } else { format!("refused {outcome:2}") };
            let counts: Vec<u64> = kinds.clone().map(|kind| self.agreed[kind][outcome]).collect();
            report.push_str(&row(&name, counts));
        }
        report + &row("too long", self.too_long)
    }
}

fn row<Cell: ToString>(name: &str, cells: impl IntoIterator<Item = Cell>) -> String {
    let cells = cells.into_iter().map(|cell| format!(" {:>9}", cell.to_string()));
    format!("  {name:10}{}\n", cells.collect::<String>())
}
