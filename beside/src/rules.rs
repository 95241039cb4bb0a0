//! What docs/FORMAT.md says of the records that Read is passed.

use crate::losses;
use formats::{Passed, Token, TokenError, Tokens, FILE_SIZE, PLACE_LIMIT, TEXT_LIMIT};

/// The records that are passed, or the refusal before any work.
pub fn tested(passed: &Passed) -> Result<Tokens, u8> {
    if passed.file < FILE_SIZE {
        return Err(3);
    }
    let records = good_records(passed).ok_or(8)?;
    if records.tokens.is_empty() {
        return Err(9);
    }
    Ok(records)
}

fn good_records(passed: &Passed) -> Option<Tokens> {
    let tokens = stated(&passed.tokens, passed.token_count, 2_048)?;
    let errors = stated(&passed.errors, passed.error_count, 255)?;
    let good = good_tokens(&tokens, &passed.text) && errors.iter().all(good_error);
    good.then(|| Tokens { tokens, errors, text: passed.text.clone() })
}

/// So many records from the start of a slice, if so many are allowed and there.
fn stated<const N: usize>(words: &[u32], count: u64, most: u64) -> Option<Vec<[u32; N]>> {
    if count > most || count as usize > words.len() / N {
        return None;
    }
    Some(words.chunks_exact(N).take(count as usize).map(|record| record.try_into().unwrap()).collect())
}

pub fn good_tokens(tokens: &[Token], text: &[u8]) -> bool {
    let mut previous = (0, 0);
    let mut end = 0;
    for token in tokens {
        let place = (token[1], token[2]);
        if !good_token(token, text) || place <= previous {
            return false;
        }
        previous = place;
        if has_text(token) {
            if token[3] < end {
                return false;
            }
            end = token[3] + token[4];
        }
    }
    true
}

pub fn has_text(token: &Token) -> bool {
    matches!(token[0], 1 | 2 | 3 | 54)
}

/// The rules that need no other record.
pub fn good_token(token: &Token, text: &[u8]) -> bool {
    let [kind, line, column, start, length, base, seventh, eighth] = *token;
    let end = start as usize + length as usize;
    if end > TEXT_LIMIT || end > text.len() {
        return false;
    }
    let own = &text[start as usize..end];
    let base_fits = if kind == 2 { matches!(base, 2 | 10 | 16) && digits(own, base) } else { base == 0 };
    (1..=54).contains(&kind)
        && in_script(line)
        && in_script(column)
        && base_fits
        && (has_text(token) || (start == 0 && length == 0))
        && std::str::from_utf8(own).is_ok()
        && (seventh == 0 || (seventh == 1 && losses::can_lose(kind)))
        && eighth == 0
}

fn digits(text: &[u8], base: u32) -> bool {
    let text = if base == 10 { text.strip_prefix(b"-").unwrap_or(text) } else { text };
    !text.is_empty() && text.iter().all(|c| (*c as char).is_digit(base))
}

fn in_script(number: u32) -> bool {
    (1..=PLACE_LIMIT).contains(&number)
}

pub fn good_error(error: &TokenError) -> bool {
    (1..=4).contains(&error[0]) && in_script(error[1]) && in_script(error[2]) && error[3] == 0
}
