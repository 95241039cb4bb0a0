//! Which refusals, errors, kinds and tags a set of classes meets, or each of the stored lists.

use crate::ask;
use crate::classes::{self, Class};
use crate::lists::{self, Case};
use crate::{sentence_coverage, show, stored_coverage};
use formats::{Given, ASSEMBLY, FILE_SIZE, KINDS, MINUS, TOKEN_SLICES};
use std::collections::BTreeMap;

/// How many scripts or cases have it at least once, by sort and number.
#[derive(Default)]
pub struct Met(BTreeMap<(&'static str, u32), usize>);

impl Met {
    fn add(&mut self, found: &[(&'static str, u32)]) {
        let mut found = found.to_vec();
        found.sort();
        found.dedup();
        for key in found {
            *self.0.entry(key).or_default() += 1;
        }
    }

    /// Prints one sort; whether nothing is missing.
    pub fn print(&self, sort: &'static str, wanted: &[u32], name: impl Fn(u32) -> String) -> bool {
        println!("{sort}:");
        let mut complete = true;
        for number in wanted {
            let count = self.0.get(&(sort, *number)).copied().unwrap_or(0);
            complete &= count > 0;
            println!("  {:<28}{}", name(*number), if count > 0 { count.to_string() } else { "MISSING".to_owned() });
        }
        complete
    }
}

pub fn run(classes: &[Class]) -> bool {
    let mut met = Met::default();
    for class in classes {
        let (mut scripts, mut clean) = (0, 0);
        classes::scripts(class, &mut |script| {
            let found = found_in(script);
            scripts += 1;
            clean += !found.iter().any(|(sort, _)| *sort != TAG && *sort != OPERATOR && *sort != KIND) as usize;
            met.add(&found);
        });
        println!("{}: {scripts} scripts, {clean} of them accepted with no error of any sort", class.word);
    }
    print(&met)
}

/// Prints what each stored list meets; whether nothing is missing.
pub fn lists() -> Result<bool, String> {
    let mut complete = true;
    for (sort, cases) in lists::stored()? {
        let mut met = Met::default();
        let found = match sort {
            "sentences" => sentence_coverage::found_in_case,
            "stored" => stored_coverage::found_in_case,
            _ => found_in_case,
        };
        cases.iter().for_each(|case| met.add(&found(case)));
        println!("the list of {sort}, {} cases", cases.len());
        complete &= match sort {
            "sentences" => sentence_coverage::print(&met),
            "stored" => stored_coverage::print(&met),
            _ => print_list(sort, &met),
        };
    }
    println!("{}", if complete { "nothing is missing" } else { "something is missing" });
    Ok(complete)
}

const REFUSAL: &str = "refusals of the whole operation (3 and 8 are of slices)";
pub const NUMBER: &str = "numbers";
const SLICE: &str = "output slices";
const TOKEN_ERROR: &str = "token errors (62)";
const BEGINS: &str = "letters above 127 that begin a word";
const CONTINUES: &str = "characters above 127 in a word";
const REPORTED: &str = "reported errors (60)";
const FULL: &str = "full list (61)";
const LOST: &str = "kinds at which something is lost";
const EXPECTED: &str = "expected kinds";
const GOT: &str = "kinds met in errors";
const TAG: &str = "tags";
const KIND: &str = "kinds of tokens";
const OPERATOR: &str = "operators (2D from 0, 2E from 16)";

fn found_in(script: &[u8]) -> Vec<(&'static str, u32)> {
    let answer = ask::answer(script);
    let mut found = Vec::new();
    if let Ok(records) = &answer.tokenised {
        found.extend(records.tokens.iter().map(|token| (KIND, token[0])));
        found.extend(records.tokens.iter().filter(|token| token[6] == 1).map(|token| (LOST, token[0])));
    }
    match answer.whole {
        Err(number) => found.push((REFUSAL, number as u32)),
        Ok(file) => in_file(&file, &mut found),
    }
    found
}

fn in_file(file: &[u8], found: &mut Vec<(&'static str, u32)>) {
    for (tag, body) in formats::fields(file).0 {
        found.push((TAG, tag as u32));
        match tag {
            0x62 => found.push((TOKEN_ERROR, body[0] as u32)),
            0x60 => found.push((REPORTED, body[0] as u32)),
            0x61 => {
                found.push((FULL, body[0] as u32));
                found.push((EXPECTED, body[5] as u32));
                found.push((GOT, body[6] as u32));
            }
            0x2D => found.push((OPERATOR, body[4] as u32)),
            0x2E => found.push((OPERATOR, 16 + body[4] as u32)),
            _ => (),
        }
    }
}

/// What the output slices of a case are, each with the least length that it may have.
fn slices((given, _): &Case) -> Vec<(usize, usize)> {
    match given {
        Given::Tokenise { slices, .. } => slices.iter().copied().zip(TOKEN_SLICES).collect(),
        Given::Read(passed) => vec![(passed.file, FILE_SIZE)],
        Given::Whole { file, .. } => vec![(*file, FILE_SIZE)],
        Given::Sentence { .. } | Given::Load { .. } => Vec::new(),
    }
}

const SLICE_STATES: [&str; 4] = ["one short alone, 3", "least, accepted", "longer, accepted", "longer, refused"];

fn found_in_case(case: &Case) -> Vec<(&'static str, u32)> {
    let (given, exit) = case;
    let mut found = vec![(NUMBER, exit.number as u32)];
    let slices = slices(case);
    for (at, (length, least)) in slices.iter().enumerate() {
        let others = slices.iter().filter(|(length, least)| length < least).count() - (length < least) as usize;
        let state = match (exit.number, length) {
            (3, length) if length + 1 == *least && others == 0 => 0,
            (0, length) if length == least => 1,
            (0, length) if length > least => 2,
            (4..=12, length) if length > least => 3,
            _ => continue,
        };
        found.push((SLICE, (SLICE_STATES.len() * at + state) as u32));
    }
    match given {
        Given::Tokenise { .. } => {
            let tokens = exit.words[0].chunks(8).take(exit.counts[0]);
            found.extend(tokens.clone().map(|token| (KIND, token[0])));
            found.extend(tokens.clone().filter(|token| token[6] == 1).map(|token| (LOST, token[0])));
            tokens.filter(|token| token[0] == 1).for_each(|token| in_word(token, &exit.bytes, &mut found));
            found.extend(exit.words[1].chunks(4).take(exit.counts[1]).map(|error| (TOKEN_ERROR, error[0])));
        }
        _ => in_file(&exit.bytes[..exit.counts[0]], &mut found),
    }
    found
}

/// The characters above 127 of a word.
fn in_word(token: &[u32], text: &[u8], found: &mut Vec<(&'static str, u32)>) {
    let word = std::str::from_utf8(&text[token[3] as usize..][..token[4] as usize]).unwrap();
    for (at, character) in word.char_indices().filter(|(_, character)| !character.is_ascii()) {
        found.push((if at == 0 { BEGINS } else { CONTINUES }, character as u32));
    }
}

fn print_list(sort: &str, met: &Met) -> bool {
    let tokenise = sort == "tokens";
    let (all_numbers, slices): (&[u32], &[&str]) = match sort {
        "tokens" => (&[0, 1, 2, 3, 4, 5, 6, 7], &["tokens", "errors", "text"]),
        "records" => (&[0, 3, 8, 9, 10, 11, 12], &["file"]),
        _ => (&[0, 1, 2, 3, 4, 5, 6, 7, 9, 10, 11, 12], &["file"]),
    };
    let states = SLICE_STATES.len();
    let mut complete = [
        met.print(NUMBER, all_numbers, plain),
        met.print(SLICE, &numbers(0, (states * slices.len()) as u32 - 1), |code| {
            format!("{}: {}", slices[code as usize / states], SLICE_STATES[code as usize % states])
        }),
        met.print(TOKEN_ERROR, &numbers(1, 4), plain),
    ]
    .to_vec();
    if tokenise {
        complete.push(met.print(KIND, &numbers(1, 54), kind));
        complete.push(met.print(LOST, &[MINUS, ASSEMBLY], kind));
        complete.push(met.print(BEGINS, &letters(), code));
        complete.push(met.print(CONTINUES, &in_words(), code));
    } else {
        complete.push(print_files(met));
    }
    complete.iter().all(|one| *one)
}

fn print(met: &Met) -> bool {
    let complete = [
        met.print(REFUSAL, &[1, 2, 4, 5, 6, 7, 9, 10, 11, 12], plain),
        met.print(TOKEN_ERROR, &numbers(1, 4), plain),
        met.print(KIND, &numbers(1, 54), kind),
        met.print(LOST, &[MINUS, ASSEMBLY], kind),
        print_files(met),
    ];
    let all = complete.iter().all(|one| *one);
    println!("{}", if all { "nothing is missing" } else { "something is missing" });
    all
}

/// The kinds that an error can expect; the others are expected only where they were seen before, or never.
pub const EXPECTED_KINDS: [u32; 10] = [4, 15, 26, 38, 39, 41, 42, 44, 49, 50];

/// What tree files have.
fn print_files(met: &Met) -> bool {
    let tags: Vec<u32> = show::TAGS.iter().map(|(tag, _)| *tag as u32).filter(|tag| *tag != 0x7F).collect();
    let expected = [&[0], &EXPECTED_KINDS[..]].concat();
    let operators = [numbers(0, 7), numbers(16, 20)].concat();
    let complete = [
        met.print(REPORTED, &numbers(1, 19), plain),
        met.print(FULL, &numbers(1, 21), plain),
        met.print(TAG, &tags, |tag| format!("{tag:02X} {}", show::tag_name(tag as u8))),
        met.print(OPERATOR, &operators, plain),
        met.print(EXPECTED, &expected, kind),
        met.print(GOT, &numbers(0, 54), kind),
    ];
    complete.iter().all(|one| *one)
}

/// The letters from 128 to 255.
fn letters() -> Vec<u32> {
    [170, 181, 186].into_iter().chain((192..=255).filter(|code| ![215, 247].contains(code))).collect()
}

/// What a word may have of 128 to 255.
pub fn in_words() -> Vec<u32> {
    [&[178, 179, 185, 188, 189, 190], &letters()[..]].concat()
}

/// Where a token could start, the others of 128 to 255 that are no white space are unknown.
pub fn unknown() -> Vec<u32> {
    (128..=255).filter(|code| ![133, 160].contains(code) && !letters().contains(code)).collect()
}

pub fn code(code: u32) -> String {
    format!("{code:02X} {:?}", char::from_u32(code).unwrap())
}

pub fn numbers(from: u32, to: u32) -> Vec<u32> {
    (from..=to).collect()
}

pub fn plain(number: u32) -> String {
    number.to_string()
}

pub fn kind(number: u32) -> String {
    match number {
        0 => "none".to_owned(),
        number => format!("{number} {}", KINDS[number as usize - 1]),
    }
}
