//! The product, as a static library.

use crate::terms::{End, MOST_TERM, System};

#[repr(C)]
#[derive(Clone, Copy, Default)]
pub struct Outcome {
    pub size: usize,
    pub steps: u64,
    pub end: u64,
}

unsafe extern "C" {
    fn bench_sweep(
        rules: *const u8,
        rules_len: usize,
        most: u64,
        slots: *mut u16,
        slots_len: usize,
        outcomes: *mut Outcome,
        outcomes_len: usize,
    ) -> bool;
    fn bench_print(
        rules: *const u8,
        rules_len: usize,
        starts: *const u8,
        starts_len: usize,
        out: *mut u8,
        out_len: usize,
    ) -> usize;
    fn bench_open(
        rules: *const u8,
        rules_len: usize,
        certificate: *const u8,
        certificate_len: usize,
        start: *const u8,
        start_len: usize,
    ) -> u64;
}

/// Each term lies at the front of a slot of 1,024 codes and becomes its last term.
pub fn sweep(system: &System, most: u64, slots: &mut [u16], outcomes: &mut [Outcome]) {
    assert_eq!(slots.len(), outcomes.len() * MOST_TERM);
    let rules = system.text.as_bytes();
    // SAFETY: each pointer and length are those of one slice, which is borrowed for the call.
    let done = unsafe {
        let (slots_at, outcomes_at) = (slots.as_mut_ptr(), outcomes.as_mut_ptr());
        bench_sweep(rules.as_ptr(), rules.len(), most, slots_at, slots.len(), outcomes_at, outcomes.len())
    };
    assert!(done, "rules are refused");
}

pub fn end_of(outcome: &Outcome) -> End {
    match outcome.end {
        1 => End::Normal,
        2 => End::More,
        4 => End::TooLong,
        other => panic!("no such end: {other}"),
    }
}

/// Start terms, each with a line feed behind it, into the texts of their normal forms.
pub fn print(rules: &[u8], starts: &[u8]) -> Vec<u8> {
    let lines = starts.iter().filter(|byte| **byte == b'\n').count();
    let mut out = vec![0; lines * 18_433];
    // SAFETY: as above.
    let written =
        unsafe { bench_print(rules.as_ptr(), rules.len(), starts.as_ptr(), starts.len(), out.as_mut_ptr(), out.len()) };
    out.truncate(written);
    out
}

/// The height that a job is opened in full with.
pub fn open(rules: &[u8], certificate: &[u8], start: &[u8]) -> u64 {
    // SAFETY: as above.
    let height = unsafe {
        bench_open(rules.as_ptr(), rules.len(), certificate.as_ptr(), certificate.len(), start.as_ptr(), start.len())
    };
    assert_ne!(height, u64::MAX, "the texts are refused");
    height
}
