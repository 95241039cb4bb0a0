//! The operations of docs/FORMAT.md on whole slices: the tests before any work, then the Rust's steps.

use crate::{judge, rules};
use formats::{
    Answer, Exit, Given, Passed, Runs, Sentences, Step, Token, Tokens, FILE_SIZE, FILLER, FILLER_WORD, FULL, REPORTED,
    SCRIPT_LIMIT, STEP_WORDS, TOKEN_ERRORS, TOKEN_SLICES,
};

pub fn run(given: &Given) -> Exit {
    match given {
        Given::Tokenise { script, slices } => tokens_exit(*slices, &tokenise(script, *slices)),
        Given::Read(passed) => read_exit(passed, &read(passed), texts(passed)),
        Given::Whole { script, file } => whole_exit(*file, &whole(script, *file)),
        Given::Sentence { script, list, position, slice } => {
            let answer = sentence(&examined(script), *list, *position, *slice);
            sentence_exit(*slice, &answer)
        }
        Given::Load { file, records } => load_exit(*records, &load(file, *records)),
    }
}

fn tokenise(script: &[u8], slices: [usize; 3]) -> Result<Tokens, u8> {
    let text = admitted(script)?;
    long_enough(&slices, &TOKEN_SLICES)?;
    crate::tokenised(text)
}

fn read(passed: &Passed) -> Result<Vec<u8>, u8> {
    let records = rules::tested(passed)?;
    crate::read_records(&records)
}

fn whole(script: &[u8], file: usize) -> Result<Vec<u8>, u8> {
    let text = admitted(script)?;
    long_enough(&[file], &[FILE_SIZE])?;
    crate::answer(text).whole
}

fn examined(script: &[u8]) -> Answer {
    match admitted(script) {
        Ok(text) => crate::answer(text),
        Err(number) => Answer::refused(number),
    }
}

/// The sentence at a position of a list of a script with some answer; 13 where the slice is shorter than the sentence.
pub fn sentence(answer: &Answer, list: u32, position: u64, slice: usize) -> Result<Vec<u8>, u8> {
    if let Err(number) = answer.whole {
        return Err(number);
    }
    let sentence = sentence_at(&answer.sentences, list, position);
    if slice < sentence.len() {
        return Err(13);
    }
    Ok(sentence.as_bytes().to_vec())
}

/// Where there is no such list or position, the empty sentence.
fn sentence_at(sentences: &Sentences, list: u32, position: u64) -> &str {
    let entries = match list {
        TOKEN_ERRORS => &sentences.token_errors,
        REPORTED => &sentences.reported,
        FULL => &sentences.full,
        _ => return "",
    };
    entries.get(position as usize).map_or("", String::as_str)
}

/// The steps of a file; 3 where the slice is too short for those of some file.
pub fn load(file: &[u8], records: usize) -> Result<Vec<Step>, u8> {
    long_enough(&[records], &[STEP_WORDS])?;
    judge::steps(file)
}

/// Token text: a part of the text slice.
fn token_text<'a>(tokens: &[u32], text: &'a [u8], at: usize) -> &'a [u8] {
    let Some(words) = tokens.chunks_exact(8).nth(at) else { return &[] };
    let token: Token = words.try_into().unwrap();
    if !rules::has_text(&token) || !rules::good_token(&token, text) {
        return &[];
    }
    &text[token[3] as usize..][..token[4] as usize]
}

/// What Token text gives for each record of the slice, and after the last.
fn texts(passed: &Passed) -> Vec<Vec<u8>> {
    (0..=passed.tokens.len() / 8).map(|at| token_text(&passed.tokens, &passed.text, at).to_vec()).collect()
}

/// The script as text, or refusal 1 or 2.
pub fn admitted(script: &[u8]) -> Result<&str, u8> {
    if script.len() > SCRIPT_LIMIT {
        return Err(1);
    }
    std::str::from_utf8(script).map_err(|_| 2)
}

/// Refusal 3, where a slice is too short.
fn long_enough(lengths: &[usize], least: &[usize]) -> Result<(), u8> {
    let long = lengths.iter().zip(least).all(|(length, least)| length >= least);
    if long { Ok(()) } else { Err(3) }
}

// ---- the slices at exit

pub fn tokens_exit(slices: [usize; 3], answer: &Result<Tokens, u8>) -> Exit {
    let none = Tokens::default();
    let (number, records) = match answer {
        Ok(records) => (0, records),
        Err(number) => (*number, &none),
    };
    let untouched = matches!(number, 1 | 2 | 3);
    let word = if untouched { FILLER_WORD } else { 0 };
    let byte = if untouched { FILLER } else { 0 };
    Exit {
        number,
        counts: vec![records.tokens.len(), records.errors.len(), records.text.len()],
        words: vec![
            filled(records.tokens.concat(), slices[0], word),
            filled(records.errors.concat(), slices[1], word),
        ],
        bytes: filled(records.text.clone(), slices[2], byte),
        texts: Vec::new(),
        runs: Runs::default(),
    }
}

pub fn read_exit(passed: &Passed, answer: &Result<Vec<u8>, u8>, texts: Vec<Vec<u8>>) -> Exit {
    Exit { texts, ..file_exit(passed.file, answer, &[3, 8, 9]) }
}

pub fn whole_exit(file: usize, answer: &Result<Vec<u8>, u8>) -> Exit {
    file_exit(file, answer, &[1, 2, 3])
}

/// Each refusal leaves the slice as it was.
pub fn sentence_exit(slice: usize, answer: &Result<Vec<u8>, u8>) -> Exit {
    file_exit(slice, answer, &[1, 2, 4, 5, 6, 7, 9, 10, 11, 12, 13])
}

/// `untouched` are the refusals that leave the output slice as it was.
fn file_exit(length: usize, answer: &Result<Vec<u8>, u8>, untouched: &[u8]) -> Exit {
    let (number, file) = match answer {
        Ok(file) => (0, file.as_slice()),
        Err(number) => (*number, &[][..]),
    };
    let byte = if untouched.contains(&number) { FILLER } else { 0 };
    Exit {
        number,
        counts: vec![file.len()],
        words: Vec::new(),
        bytes: filled(file.to_vec(), length, byte),
        texts: Vec::new(),
        runs: Runs::default(),
    }
}

/// Refusal 3 leaves the slice as it was, 14 and 15 leave zeros.
pub fn load_exit(records: usize, answer: &Result<Vec<Step>, u8>) -> Exit {
    let (number, steps) = match answer {
        Ok(steps) => (0, steps.as_slice()),
        Err(number) => (*number, &[][..]),
    };
    let mut runs = Runs::default();
    steps.as_flattened().iter().for_each(|word| runs.put(*word, 1));
    let word = if number == 3 { FILLER_WORD } else { 0 };
    runs.put(word, records - 4 * steps.len());
    Exit { number, counts: vec![steps.len()], words: Vec::new(), bytes: Vec::new(), texts: Vec::new(), runs }
}

/// A slice of some length that begins with what is written.
fn filled<T: Copy>(mut written: Vec<T>, length: usize, rest: T) -> Vec<T> {
    assert!(written.len() <= length, "more is written than the slice has");
    written.resize(length, rest);
    written
}
