//! The library's sentences, and what they should be.

use crate::linked::{Result, AFTER};
use crate::sentence_cases::{entries, FAR, LISTS, NO_LISTS};
use crate::show;
use formats::{Answer, FILLER};
use marked::operations;

extern "C" {
    fn dn_sentence(
        script: *const u8,
        script_len: usize,
        list: u32,
        position: usize,
        sentence: *mut u8,
        sentence_len: usize,
        bytes: *mut usize,
    ) -> u32;
}

/// A list, a position and the length of a slice.
pub struct Question {
    list: u32,
    position: u64,
    slice: usize,
    /// whether the slice has the length of a sentence
    pub exact: bool,
}

/// Each entry of each list and the place after the last, then two numbers that are no list, and a position that is far
/// away.
pub fn questions(answer: &Answer, turn: usize) -> Vec<Question> {
    let of_list = |list| {
        let entries = entries(&answer.sentences, list);
        (0..=entries.len()).flat_map(move |position| of_place(list, position, entries, turn))
    };
    let other = |list, position| Question { list, position, slice: turn % 90, exact: false };
    let others = [
        other(NO_LISTS[turn % NO_LISTS.len()], 0),
        other(NO_LISTS[turn % 7], turn as u64 % 5),
        other(LISTS[turn % 3], FAR[turn % FAR.len()]),
    ];
    LISTS.into_iter().flat_map(of_list).chain(others).collect()
}

/// The first entry, the last and the place after it in four slices, the others in one of the sentence's length.
fn of_place(list: u32, position: usize, entries: &[String], turn: usize) -> Vec<Question> {
    let bytes = entries.get(position).map_or(0, String::len);
    let inner = position > 0 && position + 1 < entries.len();
    let lengths = if inner { vec![bytes] } else { lengths(bytes, turn) };
    let question = |slice| Question {
        list,
        position: position as u64,
        slice,
        exact: position < entries.len() && slice == bytes,
    };
    lengths.into_iter().map(question).collect()
}

/// The sentence's length, one byte less, some more, and 0, each once.
fn lengths(bytes: usize, turn: usize) -> Vec<usize> {
    let mut lengths = vec![bytes, bytes.saturating_sub(1), bytes + 1 + turn % 64, 0];
    lengths.sort();
    lengths.dedup();
    lengths
}

pub fn call(script: &[u8], question: &Question) -> Result {
    let Question { list, position, slice, .. } = *question;
    let mut memory = vec![FILLER; slice + AFTER];
    let mut bytes = usize::MAX;
    let number = unsafe {
        dn_sentence(script.as_ptr(), script.len(), list, position as usize, memory.as_mut_ptr(), slice, &mut bytes)
    };
    Result { number, bytes, memory }
}

pub fn expected(answer: &Answer, question: &Question) -> Result {
    let Question { list, position, slice, .. } = *question;
    let exit = operations::sentence_exit(slice, &operations::sentence(answer, list, position, slice));
    let memory = [exit.bytes, vec![FILLER; AFTER]].concat();
    Result { number: exit.number as u32, bytes: exit.counts[0], memory }
}

pub fn lines(question: &Question, result: &Result) -> Vec<String> {
    let mut lines = vec![format!("list {:X}, position {}", question.list, question.position)];
    lines.extend(result.opening());
    let slice = result.slice();
    if slice.iter().all(|byte| *byte == FILLER) {
        lines.push("the slice is untouched".to_owned());
    } else {
        lines.extend(show::sentence(slice, result.bytes));
    }
    lines
}
