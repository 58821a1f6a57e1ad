//! The same answers over lent buffers: what each buffer holds after a call, untouched parts too.

use crate::limits;
use crate::refusal::Refusal;
use crate::value_type::Type;

/// What an accepted run reports beside what it writes.
#[derive(Clone, Copy, Debug, PartialEq, Eq)]
pub struct Counts {
    pub text_bytes: u64,
    pub work: u64,
    pub steps: u64,
    pub room: u64,
}

/// Writes the streams and the answer's text. After 8, 9 or 10 the used part of the stream buffer
/// is all zero.
pub fn run(job: &[u8], streams: &mut [i32], answer: &mut [u8]) -> Result<Counts, Refusal> {
    match crate::run(job, streams.len(), answer.len()) {
        Ok(run) => {
            write(&run.streams, streams);
            write(&run.text, answer);
            let text_bytes = run.text.len() as u64;
            Ok(Counts { text_bytes, work: run.work, steps: run.steps, room: run.room })
        }
        Err(refusal) => {
            if (8..=10).contains(&refusal.number) {
                let used = limits::used_part(streams.len());
                streams[..used].fill(0);
            }
            Err(refusal)
        }
    }
}

/// Writes the listing and answers its bytes.
pub fn list(formula: &[u8], text: &mut [u8]) -> Result<u64, Refusal> {
    let listing = crate::list(formula, text.len())?;
    write(listing.as_bytes(), text);
    Ok(listing.len() as u64)
}

/// Writes the elements and the lengths, and answers how many elements there are.
pub fn text_to_streams(
    text: &[u8],
    value_type: Type,
    elements: &mut [i32],
    lengths: &mut [usize],
) -> Result<u64, Refusal> {
    let streams = crate::text_to_streams(text, value_type, elements.len(), lengths.len())?;
    write(&streams.elements, elements);
    write(&streams.lengths, lengths);
    Ok(streams.elements.len() as u64)
}

/// Writes the answer's text and answers its bytes.
pub fn streams_to_text(
    elements: &[i32],
    lengths: &[usize],
    value_type: Type,
    answer: &mut [u8],
) -> Result<u64, Refusal> {
    let text = crate::streams_to_text(elements, lengths, value_type, answer.len())?;
    write(&text, answer);
    Ok(text.len() as u64)
}

fn write<Element: Copy>(content: &[Element], buffer: &mut [Element]) {
    buffer[..content.len()].copy_from_slice(content);
}
