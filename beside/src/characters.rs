//! Each character up to 256: what the Rust's `char` says of it, beside what is done with scripts that hold it.

use crate::ask;
use crate::compare::Tally;
#[cfg(library)]
use crate::linked;
use formats::Field;
#[cfg(library)]
use formats::FILE_SIZE;

/// A script with `@` for the character, what its file has if the answer is yes, and whether it should be.
struct Question {
    what: &'static str,
    script: &'static str,
    yes: fn(&Answer, char) -> bool,
    said: fn(char) -> bool,
}

/// The file, or the refusal.
type Answer = Result<Vec<u8>, u8>;

const QUESTIONS: [Question; 7] = [
    Question {
        what: "begins a word",
        script: "var @: T;",
        yes: |answer, c| text(answer, 0x53) == Some(c.to_string().as_bytes()),
        said: |c| known(c) && (c.is_alphabetic() || c == '_'),
    },
    Question {
        what: "continues a word",
        // no keyword is `q` and a character
        script: "var q@: T;",
        yes: |answer, c| text(answer, 0x53) == Some(format!("q{c}").as_bytes()),
        said: |c| known(c) && (c.is_alphanumeric() || c == '_'),
    },
    Question {
        what: "is skipped between tokens",
        script: "var@x: T;",
        yes: |answer, _| text(answer, 0x53) == Some(b"x") && errors(answer).is_empty(),
        said: |c| known(c) && c.is_whitespace(),
    },
    Question {
        what: "is skipped after `asm`",
        script: "asm@{}",
        yes: |answer, _| text(answer, 0x54) == Some(b"") && errors(answer).is_empty(),
        said: |c| known(c) && c.is_whitespace(),
    },
    Question {
        what: "is unknown",
        script: "var x: T;@",
        yes: |answer, _| errors(answer).first() == Some(&[4, 0, 1, 0, 10, 0, 0].as_slice()),
        said: |c| known(c) && !(c.is_whitespace() || c.is_alphabetic() || c.is_ascii_digit() || SIGNS.contains(c)),
    },
    Question {
        what: "is lost after a dash",
        script: "var x: T;-@",
        yes: |answer, _| errors(answer).contains(&[20, 0, 1, 0, 10, 0, 0].as_slice()),
        said: |c| !(known(c) && c.is_whitespace() || c.is_ascii_digit() || c == '>'),
    },
    Question { what: "is refused", script: "var x: T;@", yes: |answer, _| *answer == Err(4), said: |c| !known(c) },
];

/// The ASCII characters that begin a token and are no letters or digits.
const SIGNS: &str = "_{}()[]<>:;+*,&|^~!.=#/\"-";

fn known(c: char) -> bool {
    c as u32 <= 255
}

/// The text of the first record with a tag, which has a place before it.
fn text(answer: &Answer, tag: u8) -> Option<&[u8]> {
    let field = fields(answer).into_iter().find(|field| field.0 == tag);
    field.map(|(_, body)| &body[4..])
}

/// The bodies of all errors.
fn errors(answer: &Answer) -> Vec<&[u8]> {
    fields(answer).into_iter().filter(|field| field.0 >= 0x60).map(|(_, body)| body).collect()
}

fn fields(answer: &Answer) -> Vec<Field<'_>> {
    formats::fields(answer.as_deref().unwrap_or(&[])).0
}

/// Who is asked, and their answer to a script.
const ASKED: &[(&str, fn(&[u8]) -> Answer)] = &[
    ("the Rust's tokenizer", |script| ask::answer(script).whole),
    #[cfg(library)]
    ("the library", |script| {
        let result = linked::call(script, FILE_SIZE);
        match result.number {
            0 => Ok(result.slice()[..result.bytes].to_vec()),
            number => Err(number as u8),
        }
    }),
];

/// Asks each question of each character; whether all answers are as `char` says.
pub fn run() -> bool {
    let mut tally = Tally::beside("char");
    for question in &QUESTIONS {
        for c in '\0'..='\u{100}' {
            let script = question.script.replace('@', &c.to_string());
            let said = (question.said)(c);
            for (who, answer) in ASKED {
                let got = (question.yes)(&answer(script.as_bytes()), c);
                let line = |yes: bool| vec![format!("{who}: {} {}: {yes}", c.escape_unicode(), question.what)];
                tally.count(script.as_bytes(), got == said, || (line(said), line(got)));
            }
        }
        println!("{}: {}", question.what, ranges(question.said));
    }
    tally.end()
}

/// The characters that are so, in ranges.
fn ranges(so: fn(char) -> bool) -> String {
    let mut ranges: Vec<(u32, u32)> = Vec::new();
    for code in (0..=0x100).filter(|code| so(char::from_u32(*code).unwrap())) {
        match ranges.last_mut() {
            Some((_, last)) if *last + 1 == code => *last = code,
            _ => ranges.push((code, code)),
        }
    }
    let range = |(first, last): &(u32, u32)| if first == last { format!("{first}") } else { format!("{first}-{last}") };
    ranges.iter().map(range).collect::<Vec<_>>().join(" ")
}
