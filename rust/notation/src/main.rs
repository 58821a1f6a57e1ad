//! The program `notation`: document 01's notation to bytes on standard output, and back.

#![forbid(unsafe_code)]

use notation::NotationError;
use std::io::{Read, Write};
use std::process::ExitCode;

const USAGE: &str = "\
usage: notation formula ['FORMULA']          a formula's bytes
       notation job ['FORMULA' [TEXT ..]]    a job's bytes
       notation show < BYTES                 the notation of a formula or a job

FORMULA is like 'IN 5 1, IN 6 0, EA 7 5 1 6, PL 7 6', each TEXT like '{3,1}'. Without FORMULA it is
the first line of standard input, and the lines after it are the texts.";

fn main() -> ExitCode {
    let arguments: Vec<String> = std::env::args().skip(1).collect();
    let words: Vec<&str> = arguments.iter().map(String::as_str).collect();
    let bytes = match words.as_slice() {
        ["formula"] => from_lines(|formula, _| notation::formula(formula)),
        ["formula", formula] => notation::formula(formula),
        ["job"] => from_lines(|formula, texts| notation::job(formula, texts)),
        ["job", formula, texts @ ..] => notation::job(formula, texts),
        ["show"] => {
            standard_input().and_then(|bytes| notation::show(&bytes).map(String::into_bytes))
        }
        _ => {
            eprintln!("{USAGE}");
            return ExitCode::from(2);
        }
    };
    let written = bytes.and_then(|bytes| {
        let failed = |error| NotationError(format!("standard output: {error}"));
        std::io::stdout().write_all(&bytes).map_err(failed)
    });
    match written {
        Ok(()) => ExitCode::SUCCESS,
        Err(error) => {
            eprintln!("notation: {error}");
            ExitCode::FAILURE
        }
    }
}

/// Bytes made from the first line of standard input and the lines after it.
fn from_lines(
    make: impl Fn(&str, &[&str]) -> Result<Vec<u8>, NotationError>,
) -> Result<Vec<u8>, NotationError> {
    let failed = |_| NotationError("standard input is not UTF-8 text".to_string());
    let text = String::from_utf8(standard_input()?).map_err(failed)?;
    let mut lines = text.lines();
    let formula = lines.next().unwrap_or("");
    make(formula, &lines.collect::<Vec<_>>())
}

fn standard_input() -> Result<Vec<u8>, NotationError> {
    let mut bytes = Vec::new();
    let failed = |error| NotationError(format!("standard input: {error}"));
    std::io::stdin().read_to_end(&mut bytes).map_err(failed)?;
    Ok(bytes)
}
