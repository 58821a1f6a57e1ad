//! The program `compare`: random jobs through the model and through the verified library.
//!
//! It compares answers, streams, work, steps, room, refusals, places and the untouched parts of
//! every lent buffer, and stops at the first disagreement, with the failing job as hexadecimal
//! bytes and both answers. Without the feature `linked` the other side is the model again, on jobs
//! written to notation and back.

#![forbid(unsafe_code)]

mod calls;
mod model;
#[cfg(not(feature = "linked"))]
mod written_again;

use std::collections::BTreeMap;
use std::process::ExitCode;

#[cfg(feature = "linked")]
const OTHER: &str = "the linked library";
#[cfg(not(feature = "linked"))]
const OTHER: &str = "itself on jobs written again (no library is linked)";

fn main() -> ExitCode {
    let arguments: Vec<String> = std::env::args().skip(1).collect();
    let numbers: Result<Vec<u64>, _> = arguments.iter().map(|word| word.parse()).collect();
    let (jobs, seed) = match numbers.as_deref() {
        Ok([]) => (10_000, 1),
        Ok([jobs]) => (*jobs, 1),
        Ok([jobs, seed]) => (*jobs, *seed),
        _ => {
            eprintln!("usage: compare [JOBS [SEED]]    both numbers; 10000 and 1 where left out");
            return ExitCode::from(2);
        }
    };
    let mut outcomes: BTreeMap<u64, u64> = BTreeMap::new();
    let mut seeds = generate::Random::new(seed);
    for index in 0..jobs {
        let case_seed = seeds.number();
        match std::panic::catch_unwind(|| calls::compare_case(case_seed)) {
            Ok(Ok(outcome)) => *outcomes.entry(outcome).or_insert(0) += 1,
            Ok(Err(disagreement)) => {
                println!("job {index} of seed {seed} disagrees (case seed {case_seed})");
                println!("{disagreement}");
                return ExitCode::FAILURE;
            }
            Err(_) => {
                println!("job {index} of seed {seed} stopped the program (case seed {case_seed})");
                println!("{}", calls::describe_case(case_seed));
                return ExitCode::FAILURE;
            }
        }
    }
    println!("{jobs} jobs from seed {seed}: the model agrees with {OTHER}");
    for (outcome, count) in outcomes {
        match outcome {
            0 => println!("  answered    {count}"),
            number => println!("  refused {number:2}  {count}"),
        }
    }
    ExitCode::SUCCESS
}
