//! The verified library's side.

use crate::sheet::Sheet;
use crate::timing::time_of;
use crate::Times;
use hailspindle::{Refusal, Type};
use std::hint::black_box;

/// The type of a sheet's answer, a total for each stop of each area.
const ANSWER: Type = Type::ints(2);

/// What the library is lent, and the answer's streams, to be turned to text by themselves.
struct Buffers {
    streams: Vec<i32>,
    text: Vec<u8>,
    answer: Vec<i32>,
    lengths: Vec<usize>,
}

/// The library's times for a sheet, or its refusal. `answer` is the text it has to give.
///
/// The library has no run without text, so the run alone is what is left of a whole run when a run
/// that reads the same inputs and works out nothing is taken off, and the answer's streams to text.
pub fn times(sheet: &Sheet, answer: &str) -> Result<Times, Refusal> {
    let mut buffers = Buffers::new(sheet)?;
    let counts = hailspindle::run(&sheet.job, &mut buffers.streams, &mut buffers.text)?;
    let text = &buffers.text[..counts.text_bytes];
    assert_eq!(text, answer.as_bytes(), "both sides answer alike");
    let with_text = time_of(|| buffers.run(&sheet.job));
    let inputs = time_of(|| buffers.run(&sheet.inputs_only));
    let writing = time_of(|| buffers.write());
    Ok(Times { with_text, alone: with_text.saturating_sub(inputs + writing) })
}

/// A call of one kind: a run of the sheet (`library`), a run that only reads the inputs (`inputs`),
/// or the answer's streams to text (`answer`).
pub fn call<'a>(side: &str, sheet: &'a Sheet) -> Option<Box<dyn FnMut() + 'a>> {
    let mut buffers = Buffers::new(sheet).ok()?;
    match side {
        "library" => Some(Box::new(move || buffers.run(&sheet.job))),
        "inputs" => Some(Box::new(move || buffers.run(&sheet.inputs_only))),
        "answer" => Some(Box::new(move || buffers.write())),
        _ => None,
    }
}

impl Buffers {
    fn new(sheet: &Sheet) -> Result<Buffers, Refusal> {
        let mut streams = vec![0; hailspindle::STREAM_ELEMENTS];
        let mut text = vec![0; 65_536];
        let (mut answer, mut lengths) = (vec![0; 65_536], vec![0; 3]);
        let counts = hailspindle::run(&sheet.job, &mut streams, &mut text)?;
        let answer_text = &text[..counts.text_bytes];
        let count = hailspindle::text_to_streams(answer_text, ANSWER, &mut answer, &mut lengths)?;
        answer.truncate(count);
        Ok(Buffers { streams, text, answer, lengths })
    }

    fn run(&mut self, job: &[u8]) {
        let counts = hailspindle::run(black_box(job), &mut self.streams, &mut self.text);
        black_box(counts.is_ok());
    }

    fn write(&mut self) {
        let (answer, lengths) = (black_box(&self.answer), &self.lengths);
        black_box(hailspindle::streams_to_text(answer, lengths, ANSWER, &mut self.text).is_ok());
    }
}
