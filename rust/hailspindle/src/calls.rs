//! The library's C functions over slices, as `include/hailspindle.h` documents them.
//!
//! Each answers 0 or its refusal's number, and writes its figures to the last slice, as far as that
//! goes. This is the one module with unsafe code: a slice is passed as the pointer and the length
//! that the C functions take, and each of those functions is proved to stay within what it is lent.

mod functions {
    extern "C" {
        pub fn hailspindle_run(
            job: *const u8,
            job_length: usize,
            streams: *mut i32,
            streams_length: usize,
            answer: *mut u8,
            answer_length: usize,
            figures: *mut u64,
            figures_length: usize,
        ) -> u64;

        pub fn hailspindle_list(
            formula: *const u8,
            formula_length: usize,
            text: *mut u8,
            text_length: usize,
            figures: *mut u64,
            figures_length: usize,
        ) -> u64;

        pub fn hailspindle_check(
            formula: *const u8,
            formula_length: usize,
            figures: *mut u64,
            figures_length: usize,
        ) -> u64;

        pub fn hailspindle_find(
            job: *const u8,
            job_length: usize,
            input: usize,
            figures: *mut u64,
            figures_length: usize,
        ) -> u64;

        pub fn hailspindle_text_to_streams(
            text: *const u8,
            text_length: usize,
            base: u8,
            depth: u8,
            elements: *mut i32,
            elements_length: usize,
            lengths: *mut usize,
            lengths_length: usize,
            figures: *mut u64,
            figures_length: usize,
        ) -> u64;

        pub fn hailspindle_streams_to_text(
            elements: *const i32,
            elements_length: usize,
            lengths: *const usize,
            lengths_length: usize,
            base: u8,
            depth: u8,
            answer: *mut u8,
            answer_length: usize,
            figures: *mut u64,
            figures_length: usize,
        ) -> u64;
    }
}

/// Figures: text bytes, work, steps, room; refused, the place and three times 0.
pub fn run(job: &[u8], streams: &mut [i32], answer: &mut [u8], figures: &mut [u64]) -> u64 {
    // SAFETY: each pointer comes from a slice and is passed with that slice's length, and the
    // mutable slices can't overlap any other.
    unsafe {
        functions::hailspindle_run(
            job.as_ptr(),
            job.len(),
            streams.as_mut_ptr(),
            streams.len(),
            answer.as_mut_ptr(),
            answer.len(),
            figures.as_mut_ptr(),
            figures.len(),
        )
    }
}

/// Figure: bytes of the listing, or the place.
pub fn list(formula: &[u8], text: &mut [u8], figures: &mut [u64]) -> u64 {
    // SAFETY: as for `run`.
    unsafe {
        functions::hailspindle_list(
            formula.as_ptr(),
            formula.len(),
            text.as_mut_ptr(),
            text.len(),
            figures.as_mut_ptr(),
            figures.len(),
        )
    }
}

/// Figures: depth and base of the formula's type; refused, the place and 0. The base is 0 for ints
/// and 1 for bools, as in the two conversions.
pub fn check(formula: &[u8], figures: &mut [u64]) -> u64 {
    // SAFETY: as for `run`.
    unsafe {
        functions::hailspindle_check(
            formula.as_ptr(),
            formula.len(),
            figures.as_mut_ptr(),
            figures.len(),
        )
    }
}

/// Figures: start and length of the part of the job, both 0 where there is none. Never refused.
pub fn find(job: &[u8], input: usize, figures: &mut [u64]) -> u64 {
    // SAFETY: as for `run`.
    unsafe {
        functions::hailspindle_find(
            job.as_ptr(),
            job.len(),
            input,
            figures.as_mut_ptr(),
            figures.len(),
        )
    }
}

/// Figure: elements written, or the place.
pub fn text_to_streams(
    text: &[u8],
    base: u8,
    depth: u8,
    elements: &mut [i32],
    lengths: &mut [usize],
    figures: &mut [u64],
) -> u64 {
    // SAFETY: as for `run`.
    unsafe {
        functions::hailspindle_text_to_streams(
            text.as_ptr(),
            text.len(),
            base,
            depth,
            elements.as_mut_ptr(),
            elements.len(),
            lengths.as_mut_ptr(),
            lengths.len(),
            figures.as_mut_ptr(),
            figures.len(),
        )
    }
}

/// Figure: bytes of the answer, or the place.
pub fn streams_to_text(
    elements: &[i32],
    lengths: &[usize],
    base: u8,
    depth: u8,
    answer: &mut [u8],
    figures: &mut [u64],
) -> u64 {
    // SAFETY: as for `run`.
    unsafe {
        functions::hailspindle_streams_to_text(
            elements.as_ptr(),
            elements.len(),
            lengths.as_ptr(),
            lengths.len(),
            base,
            depth,
            answer.as_mut_ptr(),
            answer.len(),
            figures.as_mut_ptr(),
            figures.len(),
        )
    }
}
