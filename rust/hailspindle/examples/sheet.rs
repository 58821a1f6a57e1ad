//! A lead's sheet: a correction is added to each reading, and the readings of each stop are summed.
//! Then the same sheet with a reading that is too large, to show a refusal.
//!
//! After `tools/library`, in the folder `rust`: cargo run -p hailspindle --example sheet

/// `IN 0 2, IN 1 0, EA 2 0 1 1, LT 3, EA 4 2 1 1, PL 4 1, SM 3`: input 0 is a list of stops, each a
/// list of readings, and input 1 the correction.
const FORMULA: &[u8] = b"IN\0\x02IN\x01\0EA\x02\0\x01\x01LT\x03EA\x04\x02\x01\x01PL\x04\x01SM\x03";

fn main() {
    run_sheet("{{3,1},{},{4}}", "2");
    run_sheet("{{2147483647},{1}}", "2");
}

fn run_sheet(stops: &str, correction: &str) {
    let mut job = FORMULA.to_vec();
    add_value(&mut job, stops);
    add_value(&mut job, correction);
    let mut streams = vec![0; hailspindle::STREAM_ELEMENTS];
    let mut answer = vec![0; hailspindle::TEXT_BYTES];

    println!("stops {stops}, correction {correction}");
    match hailspindle::run(&job, &mut streams, &mut answer) {
        Ok(counts) => {
            println!("  totals {}", String::from_utf8_lossy(&answer[..counts.text_bytes]));
            println!("  work {}, steps {}, room {}", counts.work, counts.steps, counts.room);
        }
        Err(refusal) => {
            println!("  refused {} at {}: {refusal}", refusal.number(), refusal.place());
        }
    }
}

/// Puts a VA record behind the job's bytes.
fn add_value(job: &mut Vec<u8>, text: &str) {
    let length = u16::try_from(text.len()).expect("a VA record holds 65,535 bytes at most");
    job.extend_from_slice(b"VA");
    job.extend_from_slice(&length.to_le_bytes());
    job.extend_from_slice(text.as_bytes());
}
