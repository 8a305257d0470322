//! The proved decoder, linked from its static library.

use plain::{Answer, Day};

#[repr(C)]
struct Outcome {
    number: u8,
    delivered: usize,
    found: u64,
}

// Nothing checks this against the proved source: a slice there is a pointer and then a length here.
unsafe extern "C" {
    fn shef_decode(
        text: *const u8,
        text_length: usize,
        year: u16,
        month: u8,
        day: u8,
        bytes: *mut u8,
        bytes_length: usize,
    ) -> Outcome;
}

pub fn decode(text: &[u8], today: Day, out: &mut [u8]) -> Answer {
    // SAFETY: both pointers are those of live slices with their lengths, and the function has no
    // other demand on its arguments.
    let outcome = unsafe {
        shef_decode(
            text.as_ptr(),
            text.len(),
            today.year,
            today.month,
            today.day,
            out.as_mut_ptr(),
            out.len(),
        )
    };
    Answer {
        number: outcome.number,
        delivered: outcome.delivered,
        found: outcome.found,
    }
}
