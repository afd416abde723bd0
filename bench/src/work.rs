//! One piece of work with its buffers, which can be restored and done again.

use crate::engines::Engine;
use independent::numbers::{limit, size};
use std::hint::black_box;

/// A run's or a reading's inputs, and the areas it writes to. `read_only` is the
/// event list or the text; a reading has no book.
pub struct Work {
    start_book: Vec<u8>,
    book: Vec<u8>,
    read_only: Vec<u8>,
    written: Vec<u8>,
}

impl Work {
    pub fn run(book: Vec<u8>, events: Vec<u8>) -> Work {
        let written = vec![0; events.len()];
        Work {
            start_book: book.clone(),
            book,
            read_only: events,
            written,
        }
    }

    pub fn reading(text: Vec<u8>) -> Work {
        let written = vec![0; size::EVENT * limit::EVENTS];
        Work {
            start_book: Vec::new(),
            book: Vec::new(),
            read_only: text,
            written,
        }
    }

    /// Puts the book back as it was; a reading has nothing to put back.
    pub fn restore(&mut self) {
        self.book.copy_from_slice(&self.start_book);
    }

    /// Does the work; what the engine returned.
    #[inline]
    pub fn perform(&mut self, engine: Engine) -> u32 {
        let read_only = black_box(self.read_only.as_slice());
        let written = black_box(self.written.as_mut_slice());
        if self.start_book.is_empty() {
            black_box(engine.read(read_only, written))
        } else {
            black_box(engine.run(black_box(self.book.as_mut_slice()), read_only, written))
        }
    }

    /// All that the work left behind, to compare engines by.
    pub fn outcome(&mut self, engine: Engine) -> (u32, Vec<u8>, Vec<u8>) {
        self.restore();
        self.written.fill(0);
        let returned = self.perform(engine);
        (returned, self.book.clone(), self.written.clone())
    }
}
