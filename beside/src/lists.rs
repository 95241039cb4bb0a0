//! The stored lists, in the formats of README.md.

use crate::classes::{self, Class};
use crate::random::Random;
use crate::{altered, ask, corpus, made, sentence_cases, show, slices, stored_cases, stored_files};
use formats::{Exit, Given, Passed, Step, Tokens, FILE_SIZE, STEP_WORDS, TOKEN_SLICES};
use marked::operations;
use std::io::Write;

/// The lists and where they are stored.
const STORED: [(&str, &str); 5] = [
    ("tokens", "crates/replay_tokens/stdin"),
    ("records", "crates/replay_read/stdin"),
    ("files", "crates/replay_files/stdin"),
    ("sentences", "crates/replay_sentences/stdin"),
    ("stored", "crates/replay_stored/stdin"),
];

/// How many bytes each word of a record has.
const TOKEN_SIZES: [usize; 8] = [1, 2, 2, 2, 2, 1, 1, 1];
const ERROR_SIZES: [usize; 4] = [1, 2, 2, 1];

/// And each word of a step.
const STEP_SIZES: [usize; 4] = [1, 2, 2, 2];

/// A case: what an operation is passed, and how it should leave.
pub type Case = (Given, Exit);

// ---- the cases of a list

/// Writes a list: hand-made cases, then those of the classes; of files also those of tests/.
pub fn write(sort: &str, classes: &[Class], out: &mut dyn Write) -> Result<(), String> {
    let mut written = Written { from: String::new(), cases: 0, bytes: 0 };
    let mut each = |from: &str, given: Given| {
        let exit = ask::exit(&given);
        let bytes = bytes(&given, &exit);
        assert!(read(sort, &bytes) == Ok(vec![(given, exit)]), "a case is not read as it was written");
        written.count(from, bytes.len());
        out.write_all(&bytes).expect("the list can't be written");
    };
    match sort {
        "tokens" => {
            slices::tokens(&mut |given| each("slices", given));
            scripts(classes, &mut |from, script| each(from, Given::Tokenise { script, slices: TOKEN_SLICES }));
        }
        "files" => {
            slices::files(&mut |given| each("slices", given));
            scripts(classes, &mut |from, script| each(from, Given::Whole { script, file: FILE_SIZE }));
            for corpus::Case { script, file } in corpus::cases()? {
                each("tests", Given::Whole { script, file });
            }
        }
        "records" => {
            for case in made::cases() {
                let answer = ask::read(&case.passed);
                if answer.as_ref().err().unwrap_or(&0) != &case.number {
                    show::passed(&case.passed).iter().for_each(|line| eprintln!("{line}"));
                    return Err(format!("a case of {} has {} and not {:?}", case.sort, case.number, answer.err()));
                }
                each(case.sort, Given::Read(case.passed));
            }
            altered(classes, &mut |from, passed| each(from, Given::Read(passed)));
        }
        "sentences" => {
            sentence_cases::made(&mut each);
            let mut turn = 0;
            scripts(classes, &mut |from, script| {
                turn += 1;
                sentence_cases::of_script(&script, turn, &mut |given| each(from, given));
            });
        }
        "stored" => {
            for case in stored_cases::cases() {
                let answer = operations::load(&case.file, case.records);
                if !case.known.fits(&answer) {
                    let (file, known) = (show::script(&case.file), show::known(&case.known));
                    return Err(format!("a case of {}, {file}, has {known} and not {}", case.sort, show::loaded(&answer)));
                }
                each(case.sort, Given::Load { file: case.file, records: case.records });
            }
            for class in classes {
                stored_files::files(class, &mut |file, known| {
                    assert!(known.fits(&operations::load(file, STEP_WORDS)), "a file has not what is known of it");
                    each(&class.word, Given::Load { file: file.to_vec(), records: STEP_WORDS });
                });
            }
        }
        _ => return Err(format!("no list is of the sort {sort}; there are: tokens files records sentences stored")),
    }
    written.print();
    Ok(())
}

fn scripts(classes: &[Class], each: &mut dyn FnMut(&str, Vec<u8>)) {
    for class in classes {
        classes::scripts(class, &mut |script| each(&class.word, script.to_vec()));
    }
}

/// Three for each script that Tokenise accepts: its records, the same further apart, and damaged ones.
fn altered(classes: &[Class], each: &mut dyn FnMut(&str, Passed)) {
    let mut random = Random::new(1);
    scripts(classes, &mut |from, script| {
        let Ok(records) = ask::answer(&script).tokenised else { return };
        each(from, Passed::new(&records));
        each(from, Passed::new(&altered::spread(&records)));
        each(from, altered::damaged(&records, &mut random));
    });
}

/// How many cases and bytes are written from one class or sort.
struct Written {
    from: String,
    cases: usize,
    bytes: usize,
}

impl Written {
    fn count(&mut self, from: &str, bytes: usize) {
        if from != self.from {
            self.print();
            *self = Written { from: from.to_owned(), cases: 0, bytes: 0 };
        }
        self.cases += 1;
        self.bytes += bytes;
    }

    fn print(&self) {
        if self.cases > 0 {
            eprintln!("{}: {} cases, {} bytes", self.from, self.cases, self.bytes);
        }
    }
}

// ---- a case in bytes

/// A number in some bytes, high byte first.
fn number(value: usize, bytes: usize) -> Vec<u8> {
    let all = (value as u64).to_be_bytes();
    assert!(all[..8 - bytes].iter().all(|byte| *byte == 0), "{value} needs more than {bytes} bytes");
    all[8 - bytes..].to_vec()
}

fn numbers(values: &[usize], bytes: usize) -> Vec<u8> {
    values.iter().flat_map(|value| number(*value, bytes)).collect()
}

/// The first records of a slice, each word in its bytes.
fn records(words: &[u32], count: usize, sizes: &[usize]) -> Vec<u8> {
    let words = words[..count * sizes.len()].iter();
    words.zip(sizes.iter().cycle()).flat_map(|(word, bytes)| number(*word as usize, *bytes)).collect()
}

fn words(words: &[u32]) -> Vec<u8> {
    words.iter().flat_map(|word| word.to_be_bytes()).collect()
}

/// The length of the text of each record; after the last there is none.
fn text_lengths(texts: &[Vec<u8>]) -> Vec<u8> {
    let (last, texts) = texts.split_last().expect("there is a place after the last record");
    assert!(last.is_empty(), "no record has a text");
    texts.iter().flat_map(|text| number(text.len(), 2)).collect()
}

fn bytes(given: &Given, exit: &Exit) -> Vec<u8> {
    let refusal = vec![exit.number];
    // Load writes no bytes
    let written = exit.bytes.iter().copied().take(*exit.counts.last().unwrap()).collect::<Vec<u8>>();
    match given {
        Given::Tokenise { script, slices } => [
            numbers(&[&[script.len()][..], slices].concat(), 3),
            refusal,
            numbers(&exit.counts, 2),
            script.clone(),
            records(&exit.words[0], exit.counts[0], &TOKEN_SIZES),
            records(&exit.words[1], exit.counts[1], &ERROR_SIZES),
            written,
        ]
        .concat(),
        Given::Read(passed) => [
            numbers(&[passed.tokens.len(), passed.errors.len(), passed.text.len(), passed.file], 3),
            passed.token_count.to_be_bytes().to_vec(),
            passed.error_count.to_be_bytes().to_vec(),
            refusal,
            number(written.len(), 3),
            words(&passed.tokens),
            words(&passed.errors),
            passed.text.clone(),
            written,
            text_lengths(&exit.texts),
        ]
        .concat(),
        Given::Whole { script, file } => {
            [numbers(&[script.len(), *file], 3), refusal, number(written.len(), 3), script.clone(), written].concat()
        }
        Given::Sentence { script, list, position, slice } => [
            number(script.len(), 3),
            list.to_be_bytes().to_vec(),
            position.to_be_bytes().to_vec(),
            number(*slice, 3),
            refusal,
            number(written.len(), 3),
            script.clone(),
            written,
        ]
        .concat(),
        Given::Load { file, records: words } => [
            numbers(&[file.len(), *words], 3),
            refusal,
            numbers(&exit.counts, 2),
            file.clone(),
            records(exit.runs.steps(exit.counts[0]).as_flattened(), exit.counts[0], &STEP_SIZES),
        ]
        .concat(),
    }
}

/// The cases of a list, or why it can't be read.
pub fn read(sort: &str, list: &[u8]) -> Result<Vec<Case>, String> {
    let mut list = List { rest: list };
    let mut cases = Vec::new();
    while !list.rest.is_empty() {
        let case = match sort {
            "tokens" => list.tokens_case(),
            "records" => list.records_case(),
            "files" => list.files_case(),
            "stored" => list.stored_case(),
            _ => list.sentences_case(),
        };
        cases.push(case.ok_or_else(|| format!("the list of {sort} ends inside case {}", cases.len()))?);
    }
    Ok(cases)
}

/// The stored lists, one after the other.
pub fn stored() -> Result<Vec<(&'static str, Vec<Case>)>, String> {
    let list = |(sort, path): (&'static str, &str)| {
        let list = std::fs::read(path).map_err(|e| format!("{path} can't be read: {e}"))?;
        Ok((sort, read(sort, &list)?))
    };
    STORED.into_iter().map(list).collect()
}

/// A list from some case on.
struct List<'a> {
    rest: &'a [u8],
}

impl<'a> List<'a> {
    fn take(&mut self, count: usize) -> Option<&'a [u8]> {
        let (part, rest) = self.rest.split_at_checked(count)?;
        self.rest = rest;
        Some(part)
    }

    fn number(&mut self, bytes: usize) -> Option<usize> {
        Some(self.take(bytes)?.iter().fold(0, |number, byte| number * 256 + *byte as usize))
    }

    fn numbers<const N: usize>(&mut self, sizes: [usize; N]) -> Option<[usize; N]> {
        let mut numbers = [0; N];
        for (number, bytes) in numbers.iter_mut().zip(sizes) {
            *number = self.number(bytes)?;
        }
        Some(numbers)
    }

    fn record<const N: usize>(&mut self, sizes: [usize; N]) -> Option<[u32; N]> {
        Some(self.numbers(sizes)?.map(|word| word as u32))
    }

    fn words(&mut self, count: usize) -> Option<Vec<u32>> {
        (0..count).map(|_| Some(self.number(4)? as u32)).collect()
    }

    fn tokens_case(&mut self) -> Option<Case> {
        let [length, a, b, c] = self.numbers([3; 4])?;
        let number = self.number(1)? as u8;
        let [tokens, errors, text] = self.numbers([2; 3])?;
        let script = self.take(length)?.to_vec();
        let records = Tokens {
            tokens: (0..tokens).map(|_| self.record(TOKEN_SIZES)).collect::<Option<_>>()?,
            errors: (0..errors).map(|_| self.record(ERROR_SIZES)).collect::<Option<_>>()?,
            text: self.take(text)?.to_vec(),
        };
        let answer = if number == 0 { Ok(records) } else { Err(number) };
        let slices = [a, b, c];
        Some((Given::Tokenise { script, slices }, operations::tokens_exit(slices, &answer)))
    }

    fn records_case(&mut self) -> Option<Case> {
        let [tokens, errors, text, file] = self.numbers([3; 4])?;
        let [token_count, error_count] = self.numbers([8; 2])?;
        let number = self.number(1)? as u8;
        let length = self.number(3)?;
        let passed = Passed {
            tokens: self.words(tokens)?,
            token_count: token_count as u64,
            errors: self.words(errors)?,
            error_count: error_count as u64,
            text: self.take(text)?.to_vec(),
            file,
        };
        let answer = self.written(number, length)?;
        let mut texts = Vec::new();
        for token in passed.tokens.chunks_exact(8) {
            // an empty text may have any start
            let text = match self.number(2)? {
                0 => &[],
                length => passed.text.get(token[3] as usize..)?.get(..length)?,
            };
            texts.push(text.to_vec());
        }
        texts.push(Vec::new());
        let exit = operations::read_exit(&passed, &answer, texts);
        Some((Given::Read(passed), exit))
    }

    fn files_case(&mut self) -> Option<Case> {
        let [length, file] = self.numbers([3; 2])?;
        let number = self.number(1)? as u8;
        let written = self.number(3)?;
        let script = self.take(length)?.to_vec();
        let exit = operations::whole_exit(file, &self.written(number, written)?);
        Some((Given::Whole { script, file }, exit))
    }

    fn sentences_case(&mut self) -> Option<Case> {
        let [length, list, position, slice] = self.numbers([3, 4, 8, 3])?;
        let number = self.number(1)? as u8;
        let written = self.number(3)?;
        let script = self.take(length)?.to_vec();
        let exit = operations::sentence_exit(slice, &self.written(number, written)?);
        Some((Given::Sentence { script, list: list as u32, position: position as u64, slice }, exit))
    }

    fn stored_case(&mut self) -> Option<Case> {
        let [length, records] = self.numbers([3; 2])?;
        let number = self.number(1)? as u8;
        let count = self.number(2)?;
        let file = self.take(length)?.to_vec();
        let steps: Vec<Step> = (0..count).map(|_| self.record(STEP_SIZES)).collect::<Option<_>>()?;
        let exit = operations::load_exit(records, &if number == 0 { Ok(steps) } else { Err(number) });
        Some((Given::Load { file, records }, exit))
    }

    /// A file or a sentence, or the refusal.
    fn written(&mut self, number: u8, length: usize) -> Option<Result<Vec<u8>, u8>> {
        let written = self.take(length)?.to_vec();
        Some(if number == 0 { Ok(written) } else { Err(number) })
    }
}

/// Prints the case of a number, from 0, of a list.
pub fn print_case(sort: &str, number: usize, list: &[u8]) -> Result<(), String> {
    let cases = read(sort, list)?;
    let (given, exit) = cases.get(number).ok_or_else(|| format!("the list has no case {number}"))?;
    for line in show::given(given).iter().chain(&show::exit(given, exit)) {
        println!("{line}");
    }
    Ok(())
}
