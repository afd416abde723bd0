//! The portable C engine as a Rust module, linked by this package's build.rs.

/// `lotend_reading` of the header.
#[repr(C)]
pub struct Reading {
    pub refusal: u32,
    pub line: u32,
    pub count: u32,
}

mod linked {
    use super::Reading;

    extern "C" {
        pub fn portable_run(
            book: *mut u8,
            book_len: usize,
            events: *const u8,
            events_len: usize,
            answers: *mut u8,
            answers_len: usize,
        ) -> u32;
        pub fn portable_read_journal(
            text: *const u8,
            text_len: usize,
            events: *mut u8,
            events_len: usize,
        ) -> Reading;
    }
}

pub fn run(book: &mut [u8], events: &[u8], answers: &mut [u8]) -> u32 {
    // SAFETY: each pointer comes with its own slice's length, and slices never overlap.
    unsafe {
        linked::portable_run(
            book.as_mut_ptr(),
            book.len(),
            events.as_ptr(),
            events.len(),
            answers.as_mut_ptr(),
            answers.len(),
        )
    }
}

pub fn read_journal(text: &[u8], events: &mut [u8]) -> Reading {
    // SAFETY: as above.
    unsafe {
        linked::portable_read_journal(text.as_ptr(), text.len(), events.as_mut_ptr(), events.len())
    }
}
