//! As many lines as the program takes at once, run through it.

use crate::lines::Line;
use reference::vectors::{bytes, KINDS};
use std::io::Write;
use std::process::{Command, Stdio};

/// The program says that its input is longer than it reads where it reads this many bytes.
const READ: usize = 131_072;

/// Runs a proved program, named as its argument.
const RUNS_A_PROGRAM: &str = concat!(env!("CARGO_MANIFEST_DIR"), "/../../tools/program");

/// Lines to run together, each with the seed of its case.
#[derive(Default)]
pub struct Chunk {
    lines: Vec<(Line, u64)>,
    text: String,
}

impl Chunk {
    pub fn has_room_for(&self, line: &Line) -> bool {
        self.text.len() + line.text().len() < READ
    }

    pub fn push(&mut self, line: Line, seed: u64) {
        self.text.push_str(&line.text());
        self.lines.push((line, seed));
    }

    /// Runs the lines: nothing where the library answers each as the model does, else how not.
    pub fn run(&self) -> Result<(), String> {
        let said = program("vectors", self.text.as_bytes())?;
        if said == self.all_agree() {
            return Ok(());
        }
        let differing = self.differing(&said);
        if differing.is_empty() {
            return Err(format!("no line is told to differ, but the program says\n{said}"));
        }
        Err(differing.iter().map(|(line, seed)| disagreement(line, *seed)).collect())
    }

    /// The lines that the program tells by their numbers, from 1 on.
    fn differing(&self, said: &str) -> Vec<&(Line, u64)> {
        let number = |told: &str| -> Option<usize> {
            told.strip_prefix("line ")?.strip_suffix(" differs")?.parse().ok()
        };
        let numbers = said.lines().filter_map(number);
        numbers.filter_map(|number| self.lines.get(number.checked_sub(1)?)).collect()
    }

    /// What the program says where every line agrees.
    fn all_agree(&self) -> String {
        let count = |kind| self.lines.iter().filter(|(line, _)| line.kind == kind).count();
        (0..KINDS.len()).map(|kind| format!("{} {}\n", KINDS[kind], count(kind))).collect()
    }
}

/// A line on which the sides disagree. The program `vectors` does not tell what came out; for a job
/// or a formula the product's own programs do, which lend the most that is used.
fn disagreement(line: &Line, seed: u64) -> String {
    let field = line.input.rsplit(' ').next().unwrap_or("-");
    let other = match KINDS[line.kind] {
        "run" | "streams" => Some("run"),
        "list" | "check" => Some("list"),
        _ => None,
    };
    let library = other.map_or("otherwise".to_string(), |name| {
        let said = program(name, &bytes(field)).unwrap_or_else(|why| why);
        format!("otherwise; the program {name}, which lends the most, says {said}")
    });
    let one_line = |text: &str| text.trim_end().replace('\n', "\\n");
    let (text, model, library) = (line.text(), one_line(&line.output), one_line(&library));
    format!("case seed {seed}: {text}  the model: {model}\n  the library: {library}\n")
}

/// What a proved program prints on this input.
fn program(name: &str, input: &[u8]) -> Result<String, String> {
    let failed = |error: std::io::Error| format!("{RUNS_A_PROGRAM} {name}: {error}\n");
    let mut command = Command::new(RUNS_A_PROGRAM);
    command.arg(name).stdin(Stdio::piped()).stdout(Stdio::piped()).stderr(Stdio::piped());
    let mut child = command.spawn().map_err(failed)?;
    // Where it ends without reading, its status tells.
    let _ = child.stdin.take().expect("a pipe").write_all(input);
    let output = child.wait_with_output().map_err(failed)?;
    if !output.status.success() {
        let told = String::from_utf8_lossy(&output.stderr);
        return Err(format!("{name} ended with {}: {told}\n", output.status));
    }
    Ok(String::from_utf8_lossy(&output.stdout).into_owned())
}

#[cfg(test)]
mod tests {
    use super::*;

    #[test]
    fn the_program_says_that_all_agree_or_which_lines_differ() {
        let mut chunk = Chunk::default();
        for line in crate::lines::lines(4) {
            chunk.push(line, 4);
        }
        let all = chunk.all_agree();
        assert!(all.starts_with("run 1\n") && all.ends_with("s2t 1\n"), "{all}");
        assert!(chunk.differing(&all).is_empty());
        let said = format!("line 2 differs\nline 99 differs\n{all}");
        assert_eq!(chunk.differing(&said), [&chunk.lines[1]]);
    }
}
