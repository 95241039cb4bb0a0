//! The root of a crate around the five Rust files. It is compiled twice: around the unchanged files,
//! and with `--cfg marked` around the copy that `mark.rs` makes.
#![feature(try_trait_v2, never_type, type_changing_struct_update)]
#![allow(warnings)]

pub mod decode;
pub mod encode;
pub mod fallible;
pub mod judge;
pub mod losses;
pub mod marks;
pub mod node;
pub mod operations;
pub mod parser;
pub mod respelt;
pub mod rules;
pub mod source;
pub mod tokenizer;

/// The macro that the five files expect: an error type with a description and a place.
#[macro_export]
macro_rules! frontend_error {
    ($name:ident, $what:literal) => {
        #[derive(Debug, Clone)]
        pub struct $name {
            pub description: String,
            pub loc: $crate::source::SourceLocation,
        }

        impl $name {
            pub fn new(description: &str, loc: $crate::source::SourceLocation) -> Self {
                $crate::marks::made($what, description, &loc);
                $name { description: description.to_owned(), loc }
            }
        }

        impl std::fmt::Display for $name {
            fn fmt(&self, f: &mut std::fmt::Formatter<'_>) -> std::fmt::Result {
                write!(f, "{}: {} error: {}", self.loc.describe(), $what, self.description)
            }
        }

        impl std::error::Error for $name {}
    };
}

use formats::{Answer, Error, Sentences, Tokens, PANIC};
use std::panic::{catch_unwind, AssertUnwindSafe};

/// Tokenise's answer to a script that is UTF-8 and not too long.
pub fn tokenised(script: &str) -> Result<Tokens, u8> {
    tokenise(script).map(|found| found.records)
}

/// What the tokenizer gives: tokens, the messages of its errors, and the records of both.
struct Found {
    tokens: Vec<tokenizer::Token>,
    messages: Vec<String>,
    records: Tokens,
}

fn tokenise(script: &str) -> Result<Found, u8> {
    let input = source::SourceInputType::buffer();
    let (tokens, errors) = caught(|| tokenizer::tokenize(script, input))?;
    let records = encode::tokens(script, &tokens, &errors);
    let messages = errors.into_iter().map(|e| e.description).collect();
    Ok(Found { tokens, messages, records })
}

/// Both answers to such a script.
pub fn answer(script: &str) -> Answer {
    match tokenise(script) {
        Err(number) => Answer::refused(number),
        Ok(found) => parsed(found),
    }
}

/// Both answers, from what the tokenizer gave. Its messages are sentences as they are.
fn parsed(found: Found) -> Answer {
    let Found { tokens, messages, records } = found;
    let read = if tokens.is_empty() { Err(9) } else { read(tokens, &records) };
    let tokenised = Ok(records);
    match read {
        Ok((file, lists)) => {
            let sentences = Sentences { token_errors: messages, ..lists };
            Answer { tokenised, whole: Ok(file), sentences }
        }
        Err(number) => Answer { tokenised, whole: Err(number), sentences: Sentences::default() },
    }
}

/// Read's answer to good records, at least one token.
pub fn read_records(records: &Tokens) -> Result<Vec<u8>, u8> {
    read(decode::tokens(records), records).map(|(file, _)| file)
}

/// The file, and the sentences of the parser's two lists.
fn read(tokens: Vec<tokenizer::Token>, records: &Tokens) -> Result<(Vec<u8>, Sentences), u8> {
    let losses = losses::entries(records);
    let result = caught(|| {
        marks::begin();
        losses.iter().copied().for_each(marks::enter);
        parser::Parser::new(tokens.into_iter().peekable()).parse_module()
    })?;
    let reported: Vec<_> =
        result.errors().iter().map(|e| encode::error(&e.description, &e.loc)).collect();
    let messages = result.errors().iter().map(|e| e.description.clone()).collect();
    let lists = sentences(&losses, messages, marks::messages());
    let file = encode::file(&result.ignore_errors(), &records.errors, &reported, &marks::full_list());
    Ok((file, lists))
}

/// The sentences of the parser's errors and of the losses, which stand first in the full list.
fn sentences(losses: &[Error], reported: Vec<String>, made: Vec<String>) -> Sentences {
    let respelt =
        |messages: Vec<String>| -> Vec<String> { messages.iter().map(|message| respelt::sentence(message)).collect() };
    let lost = losses.iter().map(|loss| losses::sentence(loss.number).to_owned());
    let full = lost.chain(respelt(made)).collect();
    Sentences { token_errors: Vec::new(), reported: respelt(reported), full }
}

/// Runs steps of the Rust: what they give, or the refusal that they met.
fn caught<T>(steps: impl FnOnce() -> T) -> Result<T, u8> {
    marks::quiet(true);
    let result = catch_unwind(AssertUnwindSafe(steps));
    marks::quiet(false);
    result.map_err(|panic| match panic.downcast_ref::<marks::Refusal>() {
        Some(refusal) => refusal.0,
        None => PANIC,
    })
}
