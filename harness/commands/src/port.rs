//! The port's exported functions, each behind a safe one.
#![cfg(feature = "port")]

use harness::check::Answer;

/// What effect.rs has, on document 01's numbers. Nothing is demanded of them: a number past the last is Never.
pub mod effect {
    unsafe extern "C" {
        safe fn vine_effect_join(a: u8, b: u8) -> u8;
        safe fn vine_effect_union(a: u8, b: u8) -> u8;
        safe fn vine_effect_read(a: u8) -> bool;
        safe fn vine_effect_pass(a: u8) -> bool;
        safe fn vine_effect_barrier(a: u8) -> bool;
        safe fn vine_effect_write(a: u8) -> bool;
    }

    pub fn join(a: u8, b: u8) -> u8 {
        vine_effect_join(a, b)
    }

    pub fn union(a: u8, b: u8) -> u8 {
        vine_effect_union(a, b)
    }

    /// read, pass, barrier, write
    pub fn flags(a: u8) -> [bool; 4] {
        [vine_effect_read(a), vine_effect_pass(a), vine_effect_barrier(a), vine_effect_write(a)]
    }
}

/// `struct vine_answer` of include/vine_ownership.h.
#[repr(C)]
struct VineAnswer {
    code: u32,
    place: u32,
    kind: u32,
}

unsafe extern "C" {
    fn vine_check(bytes: *const u8, length: usize) -> VineAnswer;
}

/// `check` of document 01, which takes any bytes.
pub fn check(image: &[u8]) -> Answer {
    // SAFETY: a slice's own pointer and length; the call only reads and keeps neither.
    let VineAnswer { code, place, kind } = unsafe { vine_check(image.as_ptr(), image.len()) };
    Answer { code, place, kind }
}
