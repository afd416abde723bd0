//! The engines under test, all behind the library's C interface.

use crate::lent::Lent;
use independent::Reading;

/// An engine as the header declares it. What it may only read is lent for
/// writing too, so that a wrong engine can be tried that writes there.
pub trait Subject {
    fn run(&self, book: &mut Lent, events: &mut Lent, answers: &mut Lent) -> u32;
    fn read_journal(&self, text: &mut Lent, events: &mut Lent) -> Reading;
}

#[repr(C)]
struct LotendReading {
    refusal: u32,
    line: u32,
    count: u32,
}

impl From<LotendReading> for Reading {
    fn from(reading: LotendReading) -> Reading {
        Reading {
            refusal: reading.refusal,
            line: reading.line,
            count: reading.count,
        }
    }
}

type RunFunction = unsafe extern "C" fn(*mut u8, usize, *const u8, usize, *mut u8, usize) -> u32;
type ReadFunction = unsafe extern "C" fn(*const u8, usize, *mut u8, usize) -> LotendReading;

mod linked {
    use super::LotendReading;

    extern "C" {
        pub fn lotend_run(
            book: *mut u8,
            book_len: usize,
            events: *const u8,
            events_len: usize,
            answers: *mut u8,
            answers_len: usize,
        ) -> u32;
        pub fn lotend_read_journal(
            text: *const u8,
            text_len: usize,
            events: *mut u8,
            events_len: usize,
        ) -> LotendReading;
        pub fn plain_run(
            book: *mut u8,
            book_len: usize,
            events: *const u8,
            events_len: usize,
            answers: *mut u8,
            answers_len: usize,
        ) -> u32;
        pub fn plain_read_journal(
            text: *const u8,
            text_len: usize,
            events: *mut u8,
            events_len: usize,
        ) -> LotendReading;
    }
}

/// An engine that was linked in.
#[derive(Clone, Copy)]
pub struct Linked {
    run: RunFunction,
    read_journal: ReadFunction,
}

impl Linked {
    /// The proved library.
    pub const LIBRARY: Linked = Linked {
        run: linked::lotend_run,
        read_journal: linked::lotend_read_journal,
    };

    /// The benchmark's C engine.
    pub const PLAIN_C: Linked = Linked {
        run: linked::plain_run,
        read_journal: linked::plain_read_journal,
    };

    /// The run on slices, which never overlap.
    pub fn run_slices(self, book: &mut [u8], events: &[u8], answers: &mut [u8]) -> u32 {
        // SAFETY: each pointer comes with its own slice's length.
        unsafe {
            (self.run)(
                book.as_mut_ptr(),
                book.len(),
                events.as_ptr(),
                events.len(),
                answers.as_mut_ptr(),
                answers.len(),
            )
        }
    }

    /// The reader on slices, which never overlap.
    pub fn read_slices(self, text: &[u8], events: &mut [u8]) -> Reading {
        // SAFETY: each pointer comes with its own slice's length.
        unsafe {
            (self.read_journal)(text.as_ptr(), text.len(), events.as_mut_ptr(), events.len()).into()
        }
    }
}

impl Subject for Linked {
    fn run(&self, book: &mut Lent, events: &mut Lent, answers: &mut Lent) -> u32 {
        // SAFETY: the three buffers are apart, and each address comes with its length.
        unsafe {
            (self.run)(
                book.address(),
                book.len(),
                events.address(),
                events.len(),
                answers.address(),
                answers.len(),
            )
        }
    }

    fn read_journal(&self, text: &mut Lent, events: &mut Lent) -> Reading {
        // SAFETY: the two buffers are apart, and each address comes with its length.
        unsafe {
            (self.read_journal)(text.address(), text.len(), events.address(), events.len()).into()
        }
    }
}

/// The independent implementation itself: it must differ from itself nowhere.
pub struct Independent;

impl Subject for Independent {
    fn run(&self, book: &mut Lent, events: &mut Lent, answers: &mut Lent) -> u32 {
        independent::run(book.bytes_mut(), events.bytes(), answers.bytes_mut())
    }

    fn read_journal(&self, text: &mut Lent, events: &mut Lent) -> Reading {
        independent::read_journal(text.bytes(), events.bytes_mut())
    }
}
