//! The library's steps of a tree file, and what they should be.

use crate::linked::AFTER;
use crate::show;
use formats::{Exit, Step, FILE_SIZE, FILLER_WORD, STEP_WORDS};
use marked::operations;

extern "C" {
    fn dn_load(file: *const u8, file_len: usize, records: *mut u32, records_len: usize, count: *mut usize) -> u32;
}

/// Number and count; the slice and the words after it stay in the memory.
pub struct Result {
    pub number: u32,
    pub count: usize,
}

/// The least slice for each file, a shorter and a longer one now and then; all of them for no bytes or too many.
pub fn slice_lengths(file: &[u8], turn: usize) -> Vec<usize> {
    match turn % 32 {
        _ if file.len() > FILE_SIZE || file.is_empty() => vec![STEP_WORDS, STEP_WORDS - 1, 0, 100_000],
        0 => vec![STEP_WORDS, STEP_WORDS - 1],
        8 => vec![STEP_WORDS, STEP_WORDS + 1 + turn % 5_000],
        15 if turn % 160 == 15 => vec![STEP_WORDS, 0],
        _ => vec![STEP_WORDS],
    }
}

/// Calls the library with a slice of so many words; the memory is filled first.
pub fn call(file: &[u8], records: usize, memory: &mut Vec<u32>) -> Result {
    memory.clear();
    memory.resize(records + AFTER, FILLER_WORD);
    let mut count = usize::MAX;
    let number = unsafe { dn_load(file.as_ptr(), file.len(), memory.as_mut_ptr(), records, &mut count) };
    Result { number, count }
}

/// The judge's answer with such a slice, and the words after it.
pub fn expected(answer: &std::result::Result<Vec<Step>, u8>, records: usize) -> Exit {
    let short = Err(3);
    let mut exit = operations::load_exit(records, if records < STEP_WORDS { &short } else { answer });
    exit.runs.put(FILLER_WORD, AFTER);
    exit
}

pub fn same(expected: &Exit, got: &Result, memory: &[u32]) -> bool {
    expected.number as u32 == got.number && expected.counts[0] == got.count && expected.runs.are(memory)
}

pub fn lines(number: u32, count: usize, memory: &[u32]) -> Vec<String> {
    let (slice, after) = memory.split_at(memory.len() - AFTER);
    let untouched = after.iter().all(|word| *word == FILLER_WORD);
    let mut lines = vec![
        format!("number {number}, {count} steps, a slice of {}", slice.len()),
        format!("after the slice: {}", if untouched { "untouched" } else { "changed" }),
    ];
    lines.extend(show::steps(slice, count));
    lines
}
