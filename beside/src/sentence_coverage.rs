//! Which errors, kinds, characters and slices the list of sentences meets.

use crate::ask;
use crate::coverage::{self, code, kind, numbers, plain, Met, EXPECTED_KINDS, NUMBER};
use crate::lists::Case;
use crate::sentence_cases::{entries, LISTS};
use formats::{Given, FULL, REPORTED, TOKEN_ERRORS};

const TOKEN_ERROR: &str = "sentences of token errors (62)";
const REPORTED_ERROR: &str = "sentences of reported errors (60)";
const FULL_ERROR: &str = "sentences of the full list (61)";
const EXPECTED: &str = "expected kinds in sentences with a token";
const EXPECTED_AT_END: &str = "expected kinds in sentences at the end";
const GOT: &str = "numbers and kinds met in them";
const CHARACTER: &str = "characters to 127 in quoted text";
const ABOVE: &str = "bytes of characters above 127 in quoted text";
const NAME: &str = "characters above 127 in names";
const DIGIT: &str = "hexadecimal digits of escapes";
const UNKNOWN: &str = "unknown characters";
const SLICE: &str = "slices";

const SLICE_STATES: [&str; 9] = [
    "one short, 13",
    "empty, 13",
    "exact, accepted",
    "longer, accepted",
    "empty, no such list",
    "longer, no such list",
    "empty, past the end",
    "longer, past the end",
    "empty, refused",
];

pub fn found_in_case((given, exit): &Case) -> Vec<(&'static str, u32)> {
    let Given::Sentence { script, list, position, slice } = given else { return Vec::new() };
    let answer = ask::answer(script);
    let sentence = entries(&answer.sentences, *list).get(*position as usize);
    let state = slice_state(exit.number, *slice, LISTS.contains(list), sentence.map(String::len));
    let mut found = vec![(NUMBER, exit.number as u32)];
    found.extend(state.map(|state| (SLICE, state)));
    if let (0, Some(sentence), Ok(file)) = (exit.number, sentence, &answer.whole) {
        let fields = formats::fields(file).0;
        let error = fields.iter().filter(|(tag, _)| *tag as u32 == *list).nth(*position as usize).unwrap().1;
        in_error(*list, error, &mut found);
        in_sentence(*list, error[0], sentence, &mut found);
    }
    found
}

/// The number in `SLICE_STATES`.
fn slice_state(number: u8, slice: usize, a_list: bool, bytes: Option<usize>) -> Option<u32> {
    let empty = slice == 0;
    let state = match (number, bytes) {
        (13, Some(bytes)) if slice + 1 == bytes => 0,
        (13, _) if empty => 1,
        (0, Some(bytes)) if slice == bytes => 2,
        (0, Some(_)) => 3,
        (0, None) => 4 + 2 * a_list as u32 + !empty as u32,
        (1..=12, _) if empty => 8,
        _ => return None,
    };
    Some(state)
}

/// What the error's field in the file says.
fn in_error(list: u32, error: &[u8], found: &mut Vec<(&'static str, u32)>) {
    let [number, .., expected, got] = *error else { panic!("an error's field has seven bytes") };
    let sort = match list {
        TOKEN_ERRORS => TOKEN_ERROR,
        REPORTED => REPORTED_ERROR,
        _ => FULL_ERROR,
    };
    found.push((sort, number as u32));
    match (list, number) {
        (FULL, 2) => found.push((EXPECTED, expected as u32)),
        (FULL, 3) => found.push((EXPECTED_AT_END, expected as u32)),
        _ => (),
    }
    if got > 0 {
        found.push((GOT, number as u32 * 100 + got as u32));
    }
}

fn in_sentence(list: u32, number: u8, sentence: &str, found: &mut Vec<(&'static str, u32)>) {
    if (list, number) == (TOKEN_ERRORS, 4) {
        found.push((UNKNOWN, sentence.chars().last().unwrap() as u32));
    }
    let quoted = sentence.split_once("(\"").and_then(|(_, rest)| rest.rsplit_once('"'));
    let a_name = sentence.contains("Identifier(");
    for character in quoted.map_or(Vec::new(), |(text, _)| read(text, found)) {
        let code = character as u32;
        if a_name && code > 127 {
            found.push((NAME, code));
        }
        found.push(if code < 128 { (CHARACTER, code) } else { (ABOVE, character.len_utf8() as u32) });
    }
}

/// The characters that a quoted text stands for.
fn read(text: &str, found: &mut Vec<(&'static str, u32)>) -> Vec<char> {
    let mut characters = Vec::new();
    let mut rest = text.chars();
    while let Some(c) = rest.next() {
        characters.push(match (c, c == '\\') {
            (c, false) => c,
            _ => match rest.next().unwrap() {
                'n' => '\n',
                'r' => '\r',
                't' => '\t',
                'u' => {
                    let digits: String = rest.by_ref().skip(1).take_while(|c| *c != '}').collect();
                    found.extend(digits.chars().map(|c| (DIGIT, c as u32)));
                    char::from_u32(u32::from_str_radix(&digits, 16).unwrap()).unwrap()
                }
                c => c,
            },
        });
    }
    characters
}

/// Prints what is met; whether nothing is missing.
pub fn print(met: &Met) -> bool {
    let ascii = (0..=8).chain(14..=31).chain("$%'?@\\`\u{7F}".chars().map(|c| c as u32));
    let unknown: Vec<u32> = ascii.chain(coverage::unknown()).collect();
    let digits: Vec<u32> = "0123456789abcdef".chars().map(|c| c as u32).collect();
    let complete = [
        met.print(NUMBER, &[0, 1, 2, 4, 5, 6, 7, 9, 10, 11, 12, 13], plain),
        met.print(SLICE, &numbers(0, SLICE_STATES.len() as u32 - 1), |state| SLICE_STATES[state as usize].to_owned()),
        met.print(TOKEN_ERROR, &numbers(1, 4), plain),
        met.print(REPORTED_ERROR, &numbers(1, 19), plain),
        met.print(FULL_ERROR, &numbers(1, 21), plain),
        met.print(EXPECTED, &EXPECTED_KINDS, kind),
        met.print(EXPECTED_AT_END, &EXPECTED_KINDS, kind),
        met.print(GOT, &kinds_met(), |code| format!("{}: {}", code / 100, kind(code % 100))),
        met.print(CHARACTER, &numbers(0, 127), code),
        met.print(ABOVE, &numbers(2, 4), plain),
        met.print(NAME, &coverage::in_words(), code),
        met.print(DIGIT, &digits, code),
        met.print(UNKNOWN, &unknown, code),
    ];
    complete.iter().all(|one| *one)
}

/// The kinds that each number can name: all but those that may stand there.
fn kinds_met() -> Vec<u32> {
    let others: [(u32, &[u32]); 6] = [
        (1, &[4, 5, 15, 18, 19, 20, 21, 54]),
        (2, &[]),
        (7, &[1, 2, 3, 12, 13, 17, 24, 28, 32, 33, 41]),
        (11, &[1, 16, 24, 43]),
        (15, &[53]),
        (19, &[39, 43]),
    ];
    let met = |(number, others): (u32, &'static [u32])| {
        (1..=54).filter(|kind| !others.contains(kind)).map(move |kind| number * 100 + kind)
    };
    others.into_iter().flat_map(met).collect()
}
