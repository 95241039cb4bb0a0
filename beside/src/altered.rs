//! Records of a script that are changed, so that no tokenizer gives them.

use crate::random::Random;
use formats::{Passed, Tokens, TEXT_LIMIT};
use marked::rules;

/// The tokens with lines and texts further apart, and bytes between the texts that no text may have.
pub fn spread(records: &Tokens) -> Tokens {
    let mut spread = Tokens { text: Vec::new(), ..records.clone() };
    let gap = usize::from(records.text.len() + records.tokens.len() <= TEXT_LIMIT);
    for (at, token) in spread.tokens.iter_mut().enumerate() {
        token[1] = 8 * at as u32 + 1;
        if rules::has_text(token) {
            let own = &records.text[token[3] as usize..][..token[4] as usize];
            spread.text.extend(vec![0xFF; gap]);
            token[3] = spread.text.len() as u32;
            spread.text.extend(own);
        }
    }
    spread.text.push(0xFF);
    spread
}

/// The slices with a word, a count or a byte of text changed.
pub fn damaged(records: &Tokens, random: &mut Random) -> Passed {
    let mut passed = Passed::new(records);
    match random.below(10) {
        0 => passed.token_count = passed.token_count.wrapping_add_signed(random.below(5) as i64 - 2),
        1 => passed.error_count = passed.error_count.wrapping_add_signed(random.below(5) as i64 - 2),
        2 => change(&mut passed.text, random, |_, random| random.next() as u8),
        3 => change(&mut passed.errors, random, value),
        _ => change(&mut passed.tokens, random, value),
    }
    passed
}

fn change<T: Copy>(slice: &mut [T], random: &mut Random, other: impl Fn(T, &mut Random) -> T) {
    if !slice.is_empty() {
        let at = random.below(slice.len());
        slice[at] = other(slice[at], random);
    }
}

/// A value near a word's, or near a limit of some word.
fn value(word: u32, random: &mut Random) -> u32 {
    let limits = [0, 1, 2, 3, 4, 5, 10, 16, 53, 54, 55, 16_383, 16_384, 16_385, u32::MAX];
    match random.below(3) {
        0 => word.wrapping_add(1 + random.below(2) as u32),
        1 => word.wrapping_sub(1 + random.below(2) as u32),
        _ => limits[random.below(limits.len())],
    }
}
