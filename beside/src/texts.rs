//! Scripts with errors that name tokens, most of them with a text of characters that have a spelling of their own.

use crate::damage;
use crate::grammar;
use crate::random::Random;

/// What most tokens may not follow.
pub const OPENINGS: [&str; 14] = [
    "", "extern", "distinct", "type T", "var x:T<-", "fn f", "fn f()", "var x:T=(a", "var x:[1", "fn f(a", "fn f(a:T",
    "var x:", "var x:T<-#", "var x:struct{a:T",
];

/// One to six tokens that are wrong where they stand.
pub fn script(random: &mut Random) -> Vec<u8> {
    let mut script = String::new();
    for _ in 0..1 + random.below(6) {
        script.push_str(random.pick(&OPENINGS));
        script.push(' ');
        script.push_str(&token(random));
        script.push_str(random.pick(&[" ", "\n", ";", "}", ""]));
    }
    script.into_bytes()
}

fn token(random: &mut Random) -> String {
    match random.below(12) {
        0 => random.pick(&grammar::NAMES).to_owned(),
        10 => word(random),
        11 => char::from_u32(0x80 + random.below(0x80) as u32).unwrap().to_string(),
        1 | 2 => random.pick(&grammar::NUMBERS).to_owned(),
        3..=5 => format!("\"{}\"", text(random, '"')),
        6..=8 => format!("asm{{{}}}", text(random, '}')),
        _ => random.pick(&damage::LEXEMES).to_owned(),
    }
}

/// A letter above 127, and up to eight characters of the same bytes that a word may have.
fn word(random: &mut Random) -> String {
    let others: Vec<char> = ('\u{80}'..='\u{FF}').filter(|c| c.is_alphanumeric()).collect();
    let count = random.below(9);
    let mut word = "é".to_owned();
    word.extend((0..count).map(|_| others[random.below(others.len())]));
    word
}

/// Some characters, none of them the one that ends the text.
fn text(random: &mut Random, end: char) -> String {
    let longest = if random.chance(5) { 80 } else { 9 };
    let count = random.below(longest);
    (0..count).map(|_| character(random)).filter(|c| *c != end).collect()
}

fn character(random: &mut Random) -> char {
    let code = match random.below(12) {
        0 => random.below(32),
        1 => random.below(0x80),
        2 => 0x80 + random.below(0x780),
        3 => 0x800 + random.below(0xF800),
        4 => 0x1_0000 + random.below(0x10_0000),
        5 => return *random.pick(&[&'\u{7F}', &'\u{80}', &'\u{7FF}', &'\u{800}', &'\u{FFFF}', &'\u{10FFFF}']),
        6 => return '\0',
        7 => return '"',
        8 => return '\\',
        _ => return *random.pick(&[&'0', &'n', &'u', &'{', &'}', &'\'', &',', &' ', &')', &'1', &'é', &'\n']),
    };
    // no character has a number of a surrogate
    char::from_u32(code as u32).unwrap_or('\u{FFFD}')
}
