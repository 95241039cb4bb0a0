//! What a script loses without an error of the Rust: the seventh word of its token records, and 20 and 21 of the full
//! list.

use formats::{Error, Place, Token, Tokens, ASSEMBLY, MINUS};

/// Whether a token of this kind can lose something.
pub fn can_lose(kind: u32) -> bool {
    matches!(kind, MINUS | ASSEMBLY)
}

/// The seventh word of the record of a script's token.
pub fn seventh(script: &str, token: &Token) -> u32 {
    let [kind, line, column, ..] = *token;
    let text = || text_from(script, line as usize, column as usize);
    let lost = match kind {
        MINUS => text().chars().nth(1).is_some_and(|swallowed| !white_space(swallowed)),
        ASSEMBLY => text().split_once('{').is_some_and(|(_, rest)| !rest.contains('}')),
        _ => false,
    };
    lost as u32
}

/// What the script has from a place on; nothing, where it has no such place.
fn text_from(script: &str, line: usize, column: usize) -> &str {
    let mut text = script;
    for _ in 1..line {
        text = text.split_once('\n').map_or("", |(_, rest)| rest);
    }
    text.char_indices().nth(column - 1).map_or("", |(at, _)| &text[at..])
}

fn white_space(c: char) -> bool {
    matches!(c as u32, 9..=13 | 32 | 133 | 160)
}

/// The losses that good records tell of, in their order.
pub fn entries(records: &Tokens) -> Vec<Error> {
    records.tokens.iter().filter(|token| token[6] == 1).map(entry).collect()
}

fn entry([kind, line, column, ..]: &Token) -> Error {
    let number = if *kind == MINUS { 20 } else { 21 };
    Error { number, place: Place { line: *line, column: *column }, expected: 0, got: 0 }
}

/// The sentence of such an entry.
pub fn sentence(number: u8) -> &'static str {
    match number {
        20 => "character lost after minus",
        _ => "assembly not closed",
    }
}
