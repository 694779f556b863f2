//! The proved library, through its boundary.

use crate::wire::{Asked, Call, Item, PlanWords, Reply, Setup};

unsafe extern "C" {
    fn hemmertaupe_ask(words: *const i32, words_len: usize, i: u32, asked: *mut Asked);
    fn hemmertaupe_run(
        points: i32,
        control: i32,
        rule: i32,
        main: *const i32,
        main_len: usize,
        short: *const i32,
        short_len: usize,
        calls: *const Call,
        calls_len: usize,
        journal: *mut u8,
        journal_len: usize,
        answers: *mut Reply,
        answers_len: usize,
    ) -> usize;
    fn hemmertaupe_run_standard(
        points: i32,
        control: i32,
        rule: i32,
        strengthened: bool,
        calls: *const Call,
        calls_len: usize,
        journal: *mut u8,
        journal_len: usize,
        answers: *mut Reply,
        answers_len: usize,
    ) -> usize;
    fn hemmertaupe_size() -> usize;
    fn hemmertaupe_size_standard() -> usize;
    fn hemmertaupe_read(journal: *const u8, journal_len: usize, items: *mut Item, items_len: usize) -> usize;
    fn hemmertaupe_count(journal: *const u8, journal_len: usize) -> usize;
}

// Each function takes a slice as its pointer and then its length, keeps within it, and keeps no pointer.

pub fn ask(words: &PlanWords, i: u32) -> Asked {
    let mut asked = Asked::default();
    unsafe { hemmertaupe_ask(words.as_ptr(), words.len(), i, &mut asked) };
    asked
}

#[inline(never)]
pub fn run(setup: &Setup, calls: &[Call], journal: &mut [u8], answers: &mut [Reply]) -> usize {
    unsafe {
        hemmertaupe_run(
            setup.points,
            setup.control,
            setup.rule,
            setup.main.as_ptr(),
            setup.main.len(),
            setup.short.as_ptr(),
            setup.short.len(),
            calls.as_ptr(),
            calls.len(),
            journal.as_mut_ptr(),
            journal.len(),
            answers.as_mut_ptr(),
            answers.len(),
        )
    }
}

/// The same over the standard plans by their types; only for setups that `is_standard`.
#[inline(never)]
pub fn run_standard(setup: &Setup, calls: &[Call], journal: &mut [u8], answers: &mut [Reply]) -> usize {
    unsafe {
        hemmertaupe_run_standard(
            setup.points,
            setup.control,
            setup.rule,
            setup.main[0] == 2,
            calls.as_ptr(),
            calls.len(),
            journal.as_mut_ptr(),
            journal.len(),
            answers.as_mut_ptr(),
            answers.len(),
        )
    }
}

#[inline(never)]
pub fn read(journal: &[u8], items: &mut [Item]) -> usize {
    unsafe { hemmertaupe_read(journal.as_ptr(), journal.len(), items.as_mut_ptr(), items.len()) }
}

/// How many records there are; the greatest number if there is a fault.
#[inline(never)]
pub fn count(journal: &[u8]) -> usize {
    unsafe { hemmertaupe_count(journal.as_ptr(), journal.len()) }
}

/// The bytes of a verification over plans chosen at run time, and over the standard ones.
pub fn sizes() -> (usize, usize) {
    unsafe { (hemmertaupe_size(), hemmertaupe_size_standard()) }
}
