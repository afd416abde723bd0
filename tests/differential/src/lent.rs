//! A buffer lent to an engine, with guard bytes on both sides that it must not
//! touch.

use crate::random::Random;

/// How the bytes around a lent buffer lie.
#[derive(Clone, Copy, PartialEq, Eq)]
pub enum Surroundings {
    /// Guard bytes on both sides, compared after the call.
    Guarded,
    /// An allocation of its own that ends where the buffer ends, so that a tool
    /// that watches memory also sees a read past it.
    Exact,
}

const GUARD: usize = 24;

#[derive(Clone, PartialEq, Eq)]
pub struct Lent {
    whole: Vec<u8>,
    from: usize,
    to: usize,
}

impl Lent {
    /// Lends a copy of the contents, at an address of any alignment.
    pub fn new(contents: &[u8], surroundings: Surroundings, random: &mut Random) -> Lent {
        let (before, after) = match surroundings {
            Surroundings::Guarded => (GUARD + random.below(8), GUARD),
            Surroundings::Exact => (random.below(8), 0),
        };
        let mut whole = Vec::with_capacity(before + contents.len() + after);
        whole.resize(before, random.byte());
        whole.extend_from_slice(contents);
        whole.resize(before + contents.len() + after, random.byte());
        Lent {
            whole,
            from: before,
            to: before + contents.len(),
        }
    }

    pub fn len(&self) -> usize {
        self.to - self.from
    }

    pub fn is_empty(&self) -> bool {
        self.len() == 0
    }

    pub fn bytes(&self) -> &[u8] {
        &self.whole[self.from..self.to]
    }

    pub fn bytes_mut(&mut self) -> &mut [u8] {
        &mut self.whole[self.from..self.to]
    }

    /// The guard byte next to the buffer, past its end or before its start.
    pub fn byte_outside(&mut self, past: bool) -> &mut u8 {
        let at = if past { self.to } else { self.from - 1 };
        &mut self.whole[at]
    }

    /// The buffer's address; what stands around it may be reached from it too.
    pub fn address(&mut self) -> *mut u8 {
        self.whole.as_mut_ptr().wrapping_add(self.from)
    }

    /// What stands before and after the buffer.
    pub fn outside(&self) -> (&[u8], &[u8]) {
        (&self.whole[..self.from], &self.whole[self.to..])
    }

    /// The first byte that differs, counted from the buffer's start.
    pub fn difference(&self, expected: &Lent) -> Option<String> {
        if self.whole == expected.whole {
            return None;
        }
        let at = (0..self.whole.len()).find(|&at| self.whole[at] != expected.whole[at])?;
        let place = at as i64 - self.from as i64;
        let outside = if at < self.from || at >= self.to {
            " (outside)"
        } else {
            ""
        };
        let (is, should) = (self.whole[at], expected.whole[at]);
        Some(format!("byte {place}{outside} is {is}, expected {should}"))
    }
}
