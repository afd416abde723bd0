//! The engines side by side, each behind one call that is not inlined.

use crate::portable;
use differential::subjects::Linked;
use independent::Reading;

#[derive(Clone, Copy, PartialEq, Eq)]
pub enum Engine {
    Library,
    /// Bytes taken one at a time, as in any C.
    CPortable,
    /// Word loads, bit tricks and SSE2.
    CX86,
    Rust,
    /// Does nothing: what a measurement costs by itself.
    Nothing,
}

/// The engines that are compared, in the order they are printed.
pub const ENGINES: [Engine; 4] = [
    Engine::Library,
    Engine::CPortable,
    Engine::CX86,
    Engine::Rust,
];

impl Engine {
    pub fn named(name: &str) -> Option<Engine> {
        match name {
            "library" => Some(Engine::Library),
            "c-portable" => Some(Engine::CPortable),
            "c-x86-64" => Some(Engine::CX86),
            "rust" => Some(Engine::Rust),
            "nothing" => Some(Engine::Nothing),
            _ => None,
        }
    }

    pub fn title(self) -> &'static str {
        match self {
            Engine::Library => "library",
            Engine::CPortable => "C portable",
            Engine::CX86 => "C x86-64",
            Engine::Rust => "Rust",
            Engine::Nothing => "nothing",
        }
    }

    pub fn run(self, book: &mut [u8], events: &[u8], answers: &mut [u8]) -> u32 {
        match self {
            Engine::Library => Linked::LIBRARY.run_slices(book, events, answers),
            Engine::CPortable => portable::run(book, events, answers),
            Engine::CX86 => Linked::PLAIN_C.run_slices(book, events, answers),
            Engine::Rust => rust_run(book, events, answers),
            Engine::Nothing => 0,
        }
    }

    pub fn read(self, text: &[u8], events: &mut [u8]) -> u32 {
        match self {
            Engine::Library => Linked::LIBRARY.read_slices(text, events).count,
            Engine::CPortable => portable::read_journal(text, events).count,
            Engine::CX86 => Linked::PLAIN_C.read_slices(text, events).count,
            Engine::Rust => rust_read(text, events).count,
            Engine::Nothing => 0,
        }
    }
}

#[inline(never)]
fn rust_run(book: &mut [u8], events: &[u8], answers: &mut [u8]) -> u32 {
    independent::run(book, events, answers)
}

#[inline(never)]
fn rust_read(text: &[u8], events: &mut [u8]) -> Reading {
    independent::read_journal(text, events)
}
