//! The library's answer to a script, and what it should be.

use crate::{ask, show};
use formats::{FILE_SIZE, FILLER};
use marked::operations;

extern "C" {
    fn dn_read(script: *const u8, script_len: usize, file: *mut u8, file_len: usize, bytes: *mut usize) -> u32;
}

/// Bytes after the slice that must not change.
pub const AFTER: usize = 64;

#[derive(PartialEq)]
pub struct Result {
    pub number: u32,
    pub bytes: usize,
    /// the output slice and the bytes after it
    pub memory: Vec<u8>,
}

impl Result {
    pub fn slice(&self) -> &[u8] {
        &self.memory[..self.memory.len() - AFTER]
    }

    /// The numbers, and whether the bytes after the slice have changed.
    pub fn opening(&self) -> [String; 2] {
        let slice = self.slice().len();
        let untouched = self.memory[slice..].iter().all(|byte| *byte == FILLER);
        [
            format!("number {}, {} bytes, a slice of {slice}", self.number, self.bytes),
            format!("after the slice: {}", if untouched { "untouched" } else { "changed" }),
        ]
    }
}

/// The exact slice for each script, a shorter and a longer one now and then.
pub fn slice_lengths(turn: usize) -> Vec<usize> {
    match turn % 16 {
        0 => vec![FILE_SIZE, FILE_SIZE - 1],
        8 => vec![FILE_SIZE, 70_000],
        15 if turn % 160 == 15 => vec![FILE_SIZE, 0],
        _ => vec![FILE_SIZE],
    }
}

pub fn call(script: &[u8], length: usize) -> Result {
    let mut memory = vec![FILLER; length + AFTER];
    let mut bytes = usize::MAX;
    let number = unsafe { dn_read(script.as_ptr(), script.len(), memory.as_mut_ptr(), length, &mut bytes) };
    Result { number, bytes, memory }
}

pub fn expected(script: &[u8], length: usize) -> Result {
    let answer = match ask::answer(script).whole {
        Err(number @ (1 | 2)) => Err(number),
        _ if length < FILE_SIZE => Err(3),
        answer => answer,
    };
    let exit = operations::whole_exit(length, &answer);
    let memory = [exit.bytes, vec![FILLER; AFTER]].concat();
    Result { number: exit.number as u32, bytes: exit.counts[0], memory }
}

pub fn lines(result: &Result) -> Vec<String> {
    let slice = result.slice();
    let mut lines = result.opening().to_vec();
    if slice.iter().all(|byte| *byte == FILLER) {
        lines.push("the slice is untouched".to_owned());
    } else {
        lines.extend(show::fields(slice));
    }
    lines
}
