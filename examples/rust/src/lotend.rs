//! The library's two functions on slices, which carry their lengths, are never null
//! and cannot overlap where one of them is written: all that the library asks.

mod linked {
    extern "C" {
        pub fn lotend_run(
            book: *mut u8,
            book_len: usize,
            events: *const u8,
            events_len: usize,
            answers: *mut u8,
            answers_len: usize,
        ) -> u32;
        pub fn lotend_read_journal(
            text: *const u8,
            text_len: usize,
            events: *mut u8,
            events_len: usize,
        ) -> super::Reading;
    }
}

/// What a reading came to: the refusal and its line, or the count of events.
#[repr(C)]
pub struct Reading {
    pub refusal: u32,
    pub line: u32,
    pub count: u32,
}

/// Runs the events over the book and writes their answers; 0, or the refusal.
pub fn run(book: &mut [u8], events: &[u8], answers: &mut [u8]) -> u32 {
    let (book_at, answers_at) = (book.as_mut_ptr(), answers.as_mut_ptr());
    // SAFETY: each pointer goes with the length of the slice it came from.
    unsafe {
        linked::lotend_run(
            book_at,
            book.len(),
            events.as_ptr(),
            events.len(),
            answers_at,
            answers.len(),
        )
    }
}

/// Reads a journal into event records.
pub fn read_journal(text: &[u8], events: &mut [u8]) -> Reading {
    // SAFETY: each pointer goes with the length of the slice it came from.
    unsafe {
        linked::lotend_read_journal(text.as_ptr(), text.len(), events.as_mut_ptr(), events.len())
    }
}
