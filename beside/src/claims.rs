//! What docs/FORMAT.md states of every accepted script, tested on the Rust's answers.

use crate::ask;
use crate::classes::{self, Class};
use crate::compare::Tally;
use crate::show;
use formats::{Field, Tokens, MINUS};
use marked::rules;

/// Prints the scripts of which a statement is wrong; whether there are none.
pub fn run(classes: &[Class]) -> bool {
    let mut tally = Tally::beside("the Rust");
    for class in classes {
        classes::scripts(class, &mut |script| {
            let answer = ask::answer(script);
            let broken = match &answer.tokenised {
                Ok(records) => broken(records, answer.whole.as_deref().unwrap_or(&[])),
                Err(_) => Vec::new(),
            };
            tally.count(script, broken.is_empty(), || (show::whole(&answer.whole), broken));
        });
    }
    tally.end()
}

fn broken(records: &Tokens, file: &[u8]) -> Vec<String> {
    let (fields, rest) = formats::fields(file);
    let errors = |tag: u8| fields.iter().filter(move |(t, _)| *t == tag).map(|(_, body)| *body).collect::<Vec<_>>();
    let (reported, full) = (errors(0x60), errors(0x61));
    let (lost, made) = full.iter().copied().partition::<Vec<_>, _>(|error| error[0] >= 20);
    let tree = fields.iter().filter(|(tag, _)| *tag < 0x60).count();
    let statements = [
        ("a token record is bad", good_tokens(records)),
        ("a token error record is bad", records.errors.iter().all(rules::good_error)),
        ("the tree has more than two records more than there are tokens", tree <= records.tokens.len() + 2),
        ("an error has 0:0 or not, against its number", full.iter().all(|e| place_fits(e))),
        ("an error has kinds or not, against its number", full.iter().all(|e| kinds_fit(e))),
        ("the full list has other losses than the token records", file.is_empty() || losses(records) == lost),
        ("a loss is not before the parser's errors", full.starts_with(&lost)),
        ("a reported error is not in the full list", within(&reported, &made)),
        ("the fields are not in order", rest.is_empty() && in_order(&fields)),
        ("a record of the tree has the place 0:0", fields.iter().all(placed)),
    ];
    statements.iter().filter(|(_, holds)| !holds).map(|(text, _)| text.to_string()).collect()
}

/// Read's tests of token records, and that nothing stands between the texts.
fn good_tokens(records: &Tokens) -> bool {
    let mut end = 0;
    for token in records.tokens.iter().filter(|token| rules::has_text(token)) {
        if token[3] != end {
            return false;
        }
        end += token[4];
    }
    records.tokens.len() <= 2_048
        && end as usize == records.text.len()
        && rules::good_tokens(&records.tokens, &records.text)
}

/// The entries of the full list that the token records call for.
fn losses(records: &Tokens) -> Vec<Vec<u8>> {
    let lost = records.tokens.iter().filter(|token| token[6] != 0);
    lost.map(|[kind, line, column, ..]| {
        let [_, _, a, b] = line.to_be_bytes();
        let [_, _, c, d] = column.to_be_bytes();
        vec![if *kind == MINUS { 20 } else { 21 }, a, b, c, d, 0, 0]
    })
    .collect()
}

fn place_fits(error: &[u8]) -> bool {
    let nowhere = error[1..5] == [0, 0, 0, 0];
    nowhere == [3, 5, 6, 8, 12, 13, 14, 18].contains(&error[0])
}

fn kinds_fit(error: &[u8]) -> bool {
    let (expected, got) = (error[5] != 0, error[6] != 0);
    expected == [2, 3].contains(&error[0]) && got == [1, 2, 7, 11, 15, 19].contains(&error[0])
}

/// Whether each of the one is in the other, none used twice.
fn within(part: &[&[u8]], all: &[&[u8]]) -> bool {
    let mut left = all.to_vec();
    part.iter().all(|one| match left.iter().position(|other| other == one) {
        Some(at) => {
            left.swap_remove(at);
            true
        }
        None => false,
    })
}

fn in_order(fields: &[Field]) -> bool {
    let rank = |tag: u8| match tag {
        0x5F => 1,
        0x62 => 2,
        0x60 => 3,
        0x61 => 4,
        _ => 0,
    };
    let ranks: Vec<u8> = fields.iter().map(|(tag, _)| rank(*tag)).collect();
    ranks.is_sorted() && ranks.iter().filter(|rank| **rank == 1).count() == fields.len().min(1)
}

fn placed((tag, body): &Field) -> bool {
    matches!(tag, 0x15 | 0x33..=0x35 | 0x5F..) || (body[0..2] != [0, 0] && body[2..4] != [0, 0])
}
