//! The comparisons, and what they print.

use crate::ask;
use crate::classes::{self, Class};
#[cfg(library)]
use crate::{linked, linked_sentences, linked_stored};
use crate::tree_files::Known;
use crate::{show, stored_files, written_again};
use formats::{Step, STEP_WORDS};
use marked::operations;
use std::io::{Read, Write};
use std::process::{Command, Stdio};

const SHOWN: usize = 5;

pub struct Tally {
    /// what is right
    oracle: &'static str,
    agree: usize,
    differ: usize,
}

impl Tally {
    pub fn beside(oracle: &'static str) -> Self {
        Tally { oracle, agree: 0, differ: 0 }
    }

    /// Counts a script; the lines are made where the answers differ and it is one of the first.
    pub fn count(&mut self, script: &[u8], same: bool, lines: impl FnOnce() -> (Vec<String>, Vec<String>)) {
        if same {
            self.agree += 1;
            return;
        }
        self.differ += 1;
        if self.differ <= SHOWN {
            let (expected, got) = lines();
            println!("differs: {}", show::script(script));
            print_both(self.oracle, &expected, &got);
        }
    }

    /// Prints the last line; whether all agree.
    pub fn end(self) -> bool {
        println!("{} agree, {} differ", self.agree, self.differ);
        self.differ == 0
    }
}

/// Both answers, from some lines before the first that differ.
fn print_both(oracle: &str, expected: &[String], got: &[String]) {
    let first = (0..).find(|&at| expected.get(at) != got.get(at) || at >= expected.len()).unwrap();
    let from = first.saturating_sub(3);
    for (name, lines) in [(oracle, expected), ("compared", got)] {
        println!("  {name}, {} lines, from line {}:", lines.len(), from + 1);
        for (at, line) in lines.iter().enumerate().skip(from).take(12) {
            println!("  {} {line}", if at == first { ">" } else { " " });
        }
    }
}

/// Runs a program once for each script: what it writes is the file, or 7F 00 01 and the number.
pub fn program(path: &str, classes: &[Class]) -> bool {
    let mut tally = Tally::beside("the Rust");
    for class in classes {
        classes::scripts(class, &mut |script| {
            let answer = ask::answer(script).whole;
            let expected = answer.unwrap_or_else(|number| vec![0x7F, 0, 1, number]);
            let got = output(path, script);
            tally.count(script, expected == got, || (show::fields(&expected), show::fields(&got)));
        });
    }
    tally.end()
}

fn output(path: &str, script: &[u8]) -> Vec<u8> {
    let mut child = Command::new(path)
        .stdin(Stdio::piped())
        .stdout(Stdio::piped())
        .spawn()
        .unwrap_or_else(|e| panic!("{path} can't be run: {e}"));
    // a program may end before it has read all
    let _ = child.stdin.take().unwrap().write_all(script);
    let mut bytes = Vec::new();
    child.stdout.take().unwrap().read_to_end(&mut bytes).expect("the program's output can't be read");
    let _ = child.wait();
    bytes
}

/// Runs the linked library on each script.
#[cfg(library)]
pub fn library(classes: &[Class]) -> bool {
    let mut tally = Tally::beside("the Rust");
    let mut turn = 0;
    for class in classes {
        classes::scripts(class, &mut |script| {
            turn += 1;
            for length in linked::slice_lengths(turn) {
                let expected = linked::expected(script, length);
                let got = linked::call(script, length);
                tally.count(script, expected == got, || (linked::lines(&expected), linked::lines(&got)));
            }
        });
    }
    tally.end()
}

/// Asks the linked library for sentences of each script.
#[cfg(library)]
pub fn sentences(classes: &[Class]) -> bool {
    let mut tally = Tally::beside("the Rust");
    let (mut turn, mut errors) = (0, 0);
    for class in classes {
        classes::scripts(class, &mut |script| {
            turn += 1;
            let answer = ask::answer(script);
            for question in linked_sentences::questions(&answer, turn) {
                errors += question.exact as usize;
                let expected = linked_sentences::expected(&answer, &question);
                let got = linked_sentences::call(script, &question);
                let lines = |result| linked_sentences::lines(&question, result);
                tally.count(script, expected == got, || (lines(&expected), lines(&got)));
            }
        });
    }
    println!("{turn} scripts, the sentences of {errors} errors");
    tally.end()
}

/// Loads each tree file with the linked library; what is accepted is also written again without its skipped fields, and
/// loaded so.
#[cfg(library)]
pub fn stored(classes: &[Class]) -> bool {
    let mut tally = Tally::beside("the judge");
    let (mut files, mut accepted, mut memory) = (0, 0, Vec::new());
    for class in classes {
        stored_files::files(class, &mut |file, known| {
            files += 1;
            let answer = operations::load(file, STEP_WORDS);
            let faults = judge_faults(file, known, &answer);
            if !faults.is_empty() {
                tally.count(file, false, || (vec!["no fault of the judge".to_owned()], faults));
            }
            let lengths = linked_stored::slice_lengths(file, files);
            lengths.into_iter().for_each(|words| load(&mut tally, file, &answer, words, &mut memory));
            let Ok(steps) = &answer else { return };
            accepted += 1;
            let rest = written_again::without_skipped(file);
            if rest.len() < file.len() {
                load(&mut tally, &rest, &Ok(written_again::moved(steps)), STEP_WORDS, &mut memory);
            }
        });
    }
    println!("{files} files, {accepted} accepted");
    tally.end()
}

#[cfg(library)]
fn load(tally: &mut Tally, file: &[u8], answer: &Result<Vec<Step>, u8>, words: usize, memory: &mut Vec<u32>) {
    let expected = linked_stored::expected(answer, words);
    let got = linked_stored::call(file, words, memory);
    // the steps of the library, not those of the judge
    let mut same = linked_stored::same(&expected, &got, memory);
    if same && got.number == 0 {
        let steps: Vec<Step> = memory.chunks_exact(4).take(got.count).map(|step| step.try_into().unwrap()).collect();
        same = written_again::is_file(file, &steps);
    }
    let right: Vec<u32> = if same { Vec::new() } else { expected.runs.words().collect() };
    tally.count(file, same, || {
        (
            linked_stored::lines(expected.number as u32, expected.counts[0], &right),
            linked_stored::lines(got.number, got.count, memory),
        )
    });
}

/// The judge beside what is known of each tree file; no library is asked.
pub fn judge(classes: &[Class]) -> bool {
    let mut tally = Tally::beside("known");
    let (mut files, mut accepted, mut numbers, mut steps) = (0, 0, 0, 0);
    for class in classes {
        stored_files::files(class, &mut |file, known| {
            files += 1;
            numbers += matches!(known, Known::Number(_)) as usize;
            steps += matches!(known, Known::Steps(_)) as usize;
            let answer = operations::load(file, STEP_WORDS);
            accepted += answer.is_ok() as usize;
            let faults = judge_faults(file, known, &answer);
            tally.count(file, faults.is_empty(), || (vec!["no fault of the judge".to_owned()], faults));
        });
    }
    println!("{files} files, {accepted} accepted; the number is known of {numbers}, the steps of {steps}");
    tally.end()
}

/// What is wrong with the judge's answer to a file, if anything.
fn judge_faults(file: &[u8], known: &Known, answer: &Result<Vec<Step>, u8>) -> Vec<String> {
    let mut faults = Vec::new();
    if !known.fits(answer) {
        faults.push(format!("known: {}", show::known(known)));
        faults.push(format!("judged: {}", show::loaded(answer)));
    }
    let Ok(steps) = answer else { return faults };
    if !written_again::is_file(file, steps) {
        faults.push("written again from its steps it is another file".to_owned());
    }
    let rest = written_again::without_skipped(file);
    if rest.len() < file.len() && operations::load(&rest, STEP_WORDS) != Ok(written_again::moved(steps)) {
        faults.push("without its skipped fields it has other steps".to_owned());
    }
    faults
}

#[cfg(not(library))]
pub fn stored(classes: &[Class]) -> bool {
    library(classes)
}

#[cfg(not(library))]
pub fn library(_: &[Class]) -> bool {
    eprintln!("no library is linked: beside/build SRC LIBRARY");
    false
}

#[cfg(not(library))]
pub fn sentences(classes: &[Class]) -> bool {
    library(classes)
}
