//! The program `bench`: the leads' biggest sheets by a plain Rust walk and by the verified library.
//!
//! A sheet is a plus on each reading, or a guard on each, and a sum for each stop of each area. Both
//! sides take the same value texts and give the same answer text; then each is timed without the
//! text. It measures, it judges nothing: the times are of one run on one computer. `--calls` only
//! makes calls and `--job` only writes a job, for programs that count instructions.

#![forbid(unsafe_code)]

#[cfg(feature = "linked")]
mod linked;
mod sheet;
mod timing;
mod walk;

use sheet::{Kind, Sheet};
use std::io::Write;
use std::process::ExitCode;
use std::time::Duration;

/// The time of a sheet from text to text, and without the text.
pub struct Times {
    pub with_text: Duration,
    pub alone: Duration,
}

fn main() -> ExitCode {
    let arguments: Vec<String> = std::env::args().skip(1).collect();
    match arguments.iter().map(String::as_str).collect::<Vec<_>>()[..] {
        [] => report_all(1_000),
        ["--large"] => [1_000, 10_000].into_iter().for_each(report_all),
        ["--calls", side, count, ref sheet @ ..] if calls(side, count, sheet).is_some() => {}
        ["--job", side, ref sheet @ ..] if write_job(side, sheet).is_some() => {}
        _ => {
            eprintln!(
                "usage: bench [--large]                    with --large also 10,000 readings"
            );
            eprintln!("       bench --calls SIDE COUNT [SHEET]   SIDE: walk, walk-alone, library,");
            eprintln!("                                          inputs or answer");
            eprintln!("       bench --job SIDE [SHEET]           the job; SIDE: library or inputs");
            eprintln!("SHEET: corrected (where left out) or guarded");
            return ExitCode::from(2);
        }
    }
    ExitCode::SUCCESS
}

/// Makes so many calls of one side on 1,000 readings.
fn calls(side: &str, count: &str, sheet: &[&str]) -> Option<()> {
    let count: usize = count.parse().ok()?;
    let sheet = Sheet::new(Kind::named(sheet)?, 1_000);
    let mut call: Box<dyn FnMut()> = match side {
        "walk" => walk::call(&sheet),
        "walk-alone" => walk::call_alone(&sheet),
        #[cfg(feature = "linked")]
        _ => linked::call(side, &sheet)?,
        #[cfg(not(feature = "linked"))]
        _ => return None,
    };
    (0..count).for_each(|_| call());
    Some(())
}

/// Writes the job of a side that is run, on 1,000 readings.
fn write_job(side: &str, sheet: &[&str]) -> Option<()> {
    let sheet = Sheet::new(Kind::named(sheet)?, 1_000);
    let job = match side {
        "library" => sheet.job,
        "inputs" => sheet.inputs_only,
        _ => return None,
    };
    std::io::stdout().write_all(&job).ok()
}

fn report_all(readings: usize) {
    Kind::ALL.into_iter().for_each(|kind| report(&Sheet::new(kind, readings)));
}

fn report(sheet: &Sheet) {
    println!("{}", sheet.kind.title());
    println!("  {} readings, ten to a stop, ten stops to an area", sheet.readings);
    let answer = walk::from_text_to_text(sheet);
    println!("  {} bytes of value text in, {} out", sheet.areas_text.len(), answer.len());
    if let Ok(run) = reference::run(&sheet.job, 16_384, 65_536) {
        assert_eq!(answer.as_bytes(), run.text, "the walk's answer is the model's");
    }
    let walk = walk::times(sheet);
    print_times("walk", &walk);
    report_library(sheet, &answer, &walk);
}

#[cfg(feature = "linked")]
fn report_library(sheet: &Sheet, answer: &str, walk: &Times) {
    match linked::times(sheet, answer) {
        Ok(library) => {
            print_times("library", &library);
            let ratio =
                |library: Duration, walk: Duration| library.as_secs_f64() / walk.as_secs_f64();
            let with_text = ratio(library.with_text, walk.with_text);
            let alone = ratio(library.alone, walk.alone);
            println!("  {:8} {with_text:14.2} text to text {alone:14.2} alone", "ratio");
            println!(
                "  the library alone is its run less one that only reads the inputs, and less"
            );
            println!("  the answer's streams to text");
        }
        Err(refusal) => println!("  library  {refusal}"),
    }
}

#[cfg(not(feature = "linked"))]
fn report_library(_: &Sheet, _: &str, _: &Times) {
    println!("  library  not linked: build with --features linked");
}

fn print_times(side: &str, times: &Times) {
    let microseconds = |time: Duration| time.as_secs_f64() * 1e6;
    let (with_text, alone) = (microseconds(times.with_text), microseconds(times.alone));
    println!("  {side:8} {with_text:11.1} us text to text {alone:11.1} us alone");
}
