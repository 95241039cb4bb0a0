//! Scripts and answers in readable lines.

use crate::tree_files::Known;
use formats::{Exit, Given, Passed, Step, Tokens, FILLER, FILLER_WORD, KINDS};

/// A script in quotes; a long one is cut in its middle.
pub fn script(bytes: &[u8]) -> String {
    const ENDS: usize = 150;
    if bytes.len() <= 3 * ENDS {
        return format!("\"{}\" ({} bytes)", bytes.escape_ascii(), bytes.len());
    }
    let (first, last) = (&bytes[..ENDS], &bytes[bytes.len() - ENDS..]);
    format!("\"{}\" .. \"{}\" ({} bytes)", first.escape_ascii(), last.escape_ascii(), bytes.len())
}

/// The whole operation's answer, a line for each field.
pub fn whole(answer: &Result<Vec<u8>, u8>) -> Vec<String> {
    match answer {
        Ok(file) => fields(file),
        Err(number) => vec![format!("refused {number}")],
    }
}

/// The fields of a file; zeros after them are counted.
pub fn fields(file: &[u8]) -> Vec<String> {
    let (fields, rest) = formats::fields(file);
    let mut lines: Vec<String> = fields.iter().map(|(tag, body)| field(*tag, body)).collect();
    if rest.iter().any(|byte| *byte != 0) {
        lines.push(format!("no field: {}", hex(&rest[..rest.len().min(60)])));
    } else if !rest.is_empty() {
        lines.push(format!("{} zeros", rest.len()));
    }
    lines
}

fn field(tag: u8, body: &[u8]) -> String {
    let name = tag_name(tag);
    match tag {
        0x60..=0x62 if body.len() == 7 => format!("{tag:02X} {name} {}", error(body)),
        0x15 => format!("{tag:02X} {name} \"{}\"", body.escape_ascii()),
        0x33..=0x35 | 0x5F | 0x7F => format!("{tag:02X} {name} {}", hex(body)),
        _ if body.len() < 4 => format!("{tag:02X} {name} {}", hex(body)),
        _ => {
            let rest = &body[4..];
            let numbers = rest.len().min(number_bytes(tag));
            let (numbers, text) = rest.split_at(numbers);
            format!("{tag:02X} {name} {} {} \"{}\"", place(body), hex(numbers), text.escape_ascii())
        }
    }
}

fn number_bytes(tag: u8) -> usize {
    match tag {
        0x13 => 8,
        0x50 => 3,
        0x14 | 0x24 | 0x30 | 0x31 | 0x40 => 2,
        0x21 | 0x22 | 0x2D | 0x2E | 0x45 | 0x49 | 0x51 => 1,
        _ => 0,
    }
}

fn place(bytes: &[u8]) -> String {
    let two = |at: usize| bytes[at] as u32 * 256 + bytes[at + 1] as u32;
    format!("{}:{}", two(0), two(2))
}

fn error(body: &[u8]) -> String {
    format!("{} at {} expected {} got {}", body[0], place(&body[1..]), kind(body[5] as u32), kind(body[6] as u32))
}

fn kind(number: u32) -> String {
    match (number as usize).checked_sub(1).and_then(|at| KINDS.get(at)) {
        Some(name) => name.to_string(),
        None => number.to_string(),
    }
}

fn hex(bytes: &[u8]) -> String {
    bytes.iter().map(|byte| format!("{byte:02X}")).collect::<Vec<_>>().join(" ")
}

pub fn tag_name(tag: u8) -> &'static str {
    TAGS.iter().find(|(known, _)| *known == tag).map_or("unknown", |(_, name)| name)
}

pub const TAGS: [(u8, &str); 49] = [
    (0x10, "name"), (0x11, "void"), (0x12, "pointer"), (0x13, "array type"), (0x14, "struct type"),
    (0x15, "named type"), (0x20, "identifier"), (0x21, "integer"), (0x22, "boolean"), (0x23, "string"),
    (0x24, "call"), (0x25, "index"), (0x26, "cast"), (0x27, "take"), (0x28, "dereference"), (0x29, "field"),
    (0x2A, "bitwise not"), (0x2B, "boolean not"), (0x2C, "and"), (0x2D, "arithmetic"), (0x2E, "comparison"),
    (0x2F, "sizeof"), (0x30, "array compound"), (0x31, "struct compound"), (0x32, "compound field"),
    (0x33, "no initial value"), (0x34, "initial expression"), (0x35, "initial compound"), (0x40, "block"),
    (0x41, "expression statement"), (0x42, "variable"), (0x43, "assignment"), (0x44, "compound assignment"),
    (0x45, "return"), (0x46, "loop"), (0x47, "while"), (0x48, "break"), (0x49, "if"), (0x4A, "assembly"),
    (0x50, "function"), (0x51, "alias"), (0x52, "use"), (0x53, "global variable"), (0x54, "global assembly"),
    (0x5F, "module"), (0x60, "reported"), (0x61, "full"), (0x62, "token error"), (0x7F, "refusal"),
];

/// Tokenise's answer, a line for each record.
pub fn tokenised(answer: &Result<Tokens, u8>) -> Vec<String> {
    let records = match answer {
        Ok(records) => records,
        Err(number) => return vec![format!("refused {number}")],
    };
    let mut lines: Vec<String> = records.tokens.iter().map(|t| token(t, &records.text)).collect();
    lines.extend(records.errors.iter().map(|e| format!("token error {} at {}:{}", e[0], e[1], e[2])));
    lines
}

fn token(t: &formats::Token, text: &[u8]) -> String {
    let own = &text[t[3] as usize..(t[3] + t[4]) as usize];
    let lost = if t[6] == 0 { "" } else { " lost" };
    format!("{} at {}:{} \"{}\" start {} base {}{lost}", kind(t[0]), t[1], t[2], own.escape_ascii(), t[3], t[5])
}

/// What Read is passed, a line for each record of its slices, stated or not.
pub fn passed(passed: &Passed) -> Vec<String> {
    let mut lines = vec![format!(
        "{} tokens in {} words, {} errors in {} words, {} bytes of text, a file slice of {}",
        passed.token_count,
        passed.tokens.len(),
        passed.error_count,
        passed.errors.len(),
        passed.text.len(),
        passed.file
    )];
    lines.extend(passed.tokens.chunks(8).map(|words| format!("token {words:?}")));
    lines.extend(passed.errors.chunks(4).map(|words| format!("token error {words:?}")));
    lines.push(format!("text {}", script(&passed.text)));
    lines
}

/// What an operation is passed.
pub fn given(given: &Given) -> Vec<String> {
    match given {
        Given::Tokenise { script: bytes, slices } => vec![script(bytes), format!("slices of {slices:?}")],
        Given::Read(records) => passed(records),
        Given::Whole { script: bytes, file } => vec![script(bytes), format!("a file slice of {file}")],
        Given::Sentence { script: bytes, list, position, slice } => {
            vec![script(bytes), format!("list {list:02X}, position {position}, a slice of {slice}")]
        }
        Given::Load { file, records } => {
            let mut lines = vec![format!("{} bytes, a slice of {records} words", file.len())];
            lines.extend(fields(file));
            lines
        }
    }
}

/// A slice that begins with a sentence of some bytes.
pub fn sentence(slice: &[u8], bytes: usize) -> Vec<String> {
    let (written, rest) = slice.split_at(bytes.min(slice.len()));
    let rest = match rest.iter().position(|byte| *byte != 0) {
        None => format!("{} zeros", rest.len()),
        Some(at) => format!("after it no zero at {at}: {}", hex(&rest[at..][..(rest.len() - at).min(60)])),
    };
    vec![format!("sentence {}", script(written)), rest]
}

/// What is known of a tree file.
pub fn known(known: &Known) -> String {
    match known {
        Known::Nothing => "nothing".to_owned(),
        Known::Number(number) => format!("number {number}"),
        Known::Steps(steps) => loaded(&Ok(steps.clone())),
    }
}

/// Load's answer in one line.
pub fn loaded(answer: &Result<Vec<Step>, u8>) -> String {
    match answer {
        Ok(steps) => format!("{} steps, {}", steps.len(), steps.iter().map(|at| step(at)).collect::<Vec<_>>().join("; ")),
        Err(number) => format!("refused {number}"),
    }
}

fn step([tag, children, start, length]: &Step) -> String {
    format!("{tag:02X} {} {children} children, body at {start}, {length} bytes", tag_name(*tag as u8))
}

/// A slice that begins with so many steps.
pub fn steps(slice: &[u32], count: usize) -> Vec<String> {
    let count = count.min(slice.len() / 4);
    let (written, rest) = slice.split_at(4 * count);
    let mut lines: Vec<String> = written.chunks_exact(4).map(|words| step(words.try_into().unwrap())).collect();
    lines.push(match rest.iter().position(|word| *word != rest[0]) {
        None if rest.first().is_none_or(|word| *word == 0) => format!("{} zeros", rest.len()),
        None if rest[0] == FILLER_WORD => "the rest is untouched".to_owned(),
        other => format!("the rest begins with {:X?}, other words from {other:?}", &rest[..rest.len().min(8)]),
    });
    lines
}

/// What an operation answers, a line for each record of its slices.
pub fn exit(given: &Given, exit: &Exit) -> Vec<String> {
    let mut lines = vec![format!("number {}, counts {:?}", exit.number, exit.counts)];
    if exit.bytes.first() == Some(&FILLER) {
        lines.push("the slices are untouched".to_owned());
    } else if let Given::Load { .. } = given {
        let slice: Vec<u32> = exit.runs.words().collect();
        lines.extend(steps(&slice, exit.counts[0]));
    } else if let Given::Sentence { .. } = given {
        lines.extend(sentence(&exit.bytes, exit.counts[0]));
    } else if let [tokens, errors] = &exit.words[..] {
        let records = Tokens {
            tokens: tokens.chunks_exact(8).take(exit.counts[0]).map(|words| words.try_into().unwrap()).collect(),
            errors: errors.chunks_exact(4).take(exit.counts[1]).map(|words| words.try_into().unwrap()).collect(),
            text: exit.bytes.clone(),
        };
        lines.extend(tokenised(&Ok(records)));
    } else {
        lines.extend(fields(&exit.bytes));
    }
    lines.extend(exit.texts.iter().enumerate().map(|(at, text)| format!("text {at} {}", script(text))));
    lines
}
