//! Which fields, refusals, limits and slices the list of stored tree files meets.

use crate::coverage::{numbers, plain, Met, NUMBER};
use crate::lists::Case;
use crate::tree_files::{bytes_of, most_number, place_bytes, records, COUNTED, WITH_TEXT};
use formats::{Given, FILE_SIZE, STEP_WORDS};
use marked::judge;

const ACCEPTED: &str = "tags accepted";
const REFUSED_14: &str = "tags of the field that is 14";
const REFUSED_15: &str = "tags of the field that is 15";
const AT_THE_END: &str = "15 at the end of the file";
const COUNT: &str = "tags and counts accepted";
const ABOVE: &str = "tags with the count 2,049, 14";
const BYTE: &str = "tags and bytes accepted";
const PLACE: &str = "tags and halves of places accepted, at the bounds";
const NO_PLACE: &str = "tags and halves of places outside them, 14";
const TEXT: &str = "tags and texts accepted: empty, with characters above 127";
const NO_TEXT: &str = "tags with a text that is not UTF-8, 14";
const ERROR: &str = "errors and their numbers";
const AT_END: &str = "errors at 0:0 and their numbers";
const SLICE: &str = "slices";
const FILE: &str = "files";

const SLICE_STATES: [&str; 10] = [
    "empty, 3",
    "one word short, 3",
    "one word short, a file of 65,537 bytes, 3",
    "least, accepted",
    "least, 14",
    "least, 15",
    "longer, accepted",
    "longer, 14",
    "longer, 15",
    "longer, a file of 65,537 bytes, 14",
];

const FILES: [&str; 6] = [
    "empty, 15",
    "65,536 bytes, accepted",
    "65,537 bytes, 14",
    "21,844 fields of three bytes and more, accepted",
    "21,845 fields of three bytes, 15",
    "more than 2,048 records wait, accepted",
];

pub fn found_in_case((given, exit): &Case) -> Vec<(&'static str, u32)> {
    let Given::Load { file, records } = given else { return Vec::new() };
    let mut found = vec![(NUMBER, exit.number as u32)];
    let too_long = file.len() == FILE_SIZE + 1;
    let state = match (exit.number, records.cmp(&STEP_WORDS)) {
        (3, _) if *records == 0 => Some(0),
        (3, _) if *records == STEP_WORDS - 1 => Some(1 + too_long as u32),
        (number @ (0 | 14 | 15), std::cmp::Ordering::Equal) => Some(3 + number.saturating_sub(13) as u32),
        (14, std::cmp::Ordering::Greater) if too_long => Some(9),
        (number @ (0 | 14 | 15), std::cmp::Ordering::Greater) => Some(6 + number.saturating_sub(13) as u32),
        _ => None,
    };
    found.extend(state.map(|state| (SLICE, state)));
    if exit.number == 3 {
        return found;
    }
    let fields = formats::fields(file).0;
    let short = fields.iter().filter(|(_, body)| body.is_empty()).count();
    let states = [
        file.is_empty(),
        exit.number == 0 && file.len() == FILE_SIZE,
        exit.number == 14 && too_long,
        exit.number == 0 && short >= 21_843,
        exit.number == 15 && short == 21_845,
        exit.number == 0 && most_waiting(exit.runs.steps(exit.counts[0])) > 2_048,
    ];
    found.extend((0..).zip(states).filter(|(_, is)| *is).map(|(state, _)| (FILE, state)));
    match judge::judged(file) {
        Ok(steps) => {
            for (tag, body) in fields {
                found.push((ACCEPTED, tag as u32));
                in_body(tag, body, &mut found);
            }
            let counted = steps.iter().filter(|step| COUNTED.contains(&(step[0] as u8)));
            found.extend(counted.map(|[tag, children, ..]| (COUNT, code(*tag as u8, *children as usize))));
        }
        // no field is looked at
        Err(_) if file.len() > FILE_SIZE => (),
        Err((15, at)) if at == file.len() => found.push((AT_THE_END, 0)),
        Err((15, at)) => found.push((REFUSED_15, file[at] as u32)),
        Err((_, at)) => {
            let tag = file[at];
            found.push((REFUSED_14, tag as u32));
            if let Some((_, body)) = formats::fields(&file[at..]).0.first() {
                in_refused(tag, body, &mut found);
            }
        }
    }
    found
}

/// A tag and a number below 65,536.
fn code(tag: u8, number: usize) -> u32 {
    tag as u32 * 65_536 + number as u32
}

fn most_waiting(steps: Vec<formats::Step>) -> u32 {
    let (mut waiting, mut most) = (0, 0);
    for [tag, children, ..] in steps {
        waiting = if tag < 0x60 { waiting + 1 - children } else { waiting };
        most = most.max(waiting);
    }
    most
}

/// Where the halves of a place are in a body; a module and others have none.
fn halves(tag: u8) -> Vec<usize> {
    match tag {
        0x60..=0x62 => vec![1, 3],
        0x70.. => vec![],
        tag if place_bytes(tag) == 4 => vec![0, 2],
        _ => vec![],
    }
}

/// What is added to a half that is a column.
const COLUMN: usize = 32_768;

fn half(body: &[u8], at: usize) -> Option<usize> {
    Some(*body.get(at)? as usize * 256 + *body.get(at + 1)? as usize)
}

/// The part of a body after its numbers, if that is text.
fn text(tag: u8, body: &[u8]) -> Option<&[u8]> {
    let numbers = match tag {
        0x21 | 0x51 => 1,
        0x50 => 3,
        _ => 0,
    };
    if WITH_TEXT.contains(&tag) { body.get(place_bytes(tag) + numbers..) } else { None }
}

fn in_body(tag: u8, body: &[u8], found: &mut Vec<(&'static str, u32)>) {
    for (which, at) in halves(tag).into_iter().enumerate() {
        if let Some(half @ (1 | 16_384)) = half(body, at) {
            found.push((PLACE, code(tag, half + COLUMN * which)));
        }
    }
    if bytes_of(tag).len() > 1 {
        found.push((BYTE, code(tag, body[4] as usize)));
    }
    if let Some(text) = text(tag, body) {
        if text.is_empty() {
            found.push((TEXT, code(tag, 0)));
        } else if !text.is_ascii() {
            found.push((TEXT, code(tag, 1)));
        }
    }
    if (0x60..=0x62).contains(&tag) {
        found.push((ERROR, code(tag, body[0] as usize)));
        if body[1..5] == [0; 4] {
            found.push((AT_END, code(tag, body[0] as usize)));
        }
    }
}

fn in_refused(tag: u8, body: &[u8], found: &mut Vec<(&'static str, u32)>) {
    for (which, at) in halves(tag).into_iter().enumerate() {
        if let Some(half @ (0 | 16_385)) = half(body, at) {
            found.push((NO_PLACE, code(tag, half + COLUMN * which)));
        }
    }
    let from = place_bytes(tag) + (tag == 0x50) as usize;
    if COUNTED.contains(&tag) && half(body, from) == Some(2_049) {
        found.push((ABOVE, tag as u32));
    }
    if text(tag, body).is_some_and(|text| std::str::from_utf8(text).is_err()) {
        found.push((NO_TEXT, tag as u32));
    }
}

/// Prints what is met; whether nothing is missing.
pub fn print(met: &Met) -> bool {
    let tags = |tags: &[u8]| tags.iter().map(|tag| *tag as u32).collect::<Vec<_>>();
    let pairs = |tags: &[u8], numbers: &[usize]| -> Vec<u32> {
        tags.iter().flat_map(|tag| numbers.iter().map(|number| code(*tag, *number))).collect()
    };
    let judged: Vec<u8> = records().into_iter().chain([0x5F, 0x62, 0x60, 0x61]).collect();
    let with_place: Vec<u8> = judged.iter().copied().filter(|tag| !halves(*tag).is_empty()).collect();
    let with_byte: Vec<u8> = records().into_iter().filter(|tag| bytes_of(*tag).len() > 1).collect();
    let counts: Vec<u32> = COUNTED
        .into_iter()
        .flat_map(|tag| [0, 1, 256, 2_048].map(|count| code(tag, crate::tree_files::shape(tag, count, 0).1.len())))
        .collect();
    let bytes = with_byte.iter().flat_map(|tag| bytes_of(*tag).into_iter().map(|byte| code(*tag, byte as usize)));
    let errors = |tag: u8| (1..=most_number(tag)).map(move |number| code(tag, number as usize));
    let with_end: Vec<u32> = [0x60, 0x61].into_iter().flat_map(errors).collect();
    let errors: Vec<u32> = [0x62, 0x60, 0x61].into_iter().flat_map(errors).collect();
    let tag = |tag: u32| format!("{tag:02X}");
    let pair = |code: u32| format!("{:02X}: {}", code >> 16, code & 0xFFFF);
    let place = |code: u32| {
        let half = (code & 0xFFFF) as usize;
        format!("{:02X} {} {}", code >> 16, if half < COLUMN { "line" } else { "column" }, half % COLUMN)
    };
    let of = |names: &'static [&'static str]| move |state: u32| names[state as usize].to_owned();
    let complete = [
        met.print(NUMBER, &[0, 3, 14, 15], plain),
        met.print(SLICE, &numbers(0, SLICE_STATES.len() as u32 - 1), of(&SLICE_STATES)),
        met.print(FILE, &numbers(0, FILES.len() as u32 - 1), of(&FILES)),
        met.print(ACCEPTED, &[tags(&judged), numbers(0x70, 0xFF)].concat(), tag),
        met.print(REFUSED_14, &numbers(0, 0xFF), tag),
        met.print(REFUSED_15, &tags(&judged), tag),
        met.print(AT_THE_END, &[0], plain),
        met.print(COUNT, &counts, pair),
        met.print(ABOVE, &tags(&COUNTED), tag),
        met.print(BYTE, &bytes.collect::<Vec<u32>>(), pair),
        met.print(PLACE, &pairs(&with_place, &[1, 1 + COLUMN, 16_384, 16_384 + COLUMN]), place),
        met.print(NO_PLACE, &pairs(&with_place, &[0, COLUMN, 16_385, 16_385 + COLUMN]), place),
        met.print(TEXT, &pairs(&WITH_TEXT, &[0, 1]), pair),
        met.print(NO_TEXT, &tags(&WITH_TEXT), tag),
        met.print(ERROR, &errors, pair),
        met.print(AT_END, &with_end, pair),
    ];
    complete.iter().all(|one| *one)
}
