//! Scripts that are mostly wrong: damaged ones, random lexemes, random bytes.

use crate::grammar;
use crate::random::Random;

/// One lexeme of each kind, in the order of the kinds.
pub const LEXEMES: [&str; 54] = [
    "a", "1", "\"s\"", "fn", "var", "return", "loop", "while", "break", "if", "else", "true", "false",
    "as", "type", "struct", "sizeof", "use", "extern", "distinct", "internal", "+", "-", "*", "/", "=",
    "==", "&", "&&", "|", "^", "~", "!", ".", ".*", "<<", ">>", "#", "{", "}", "(", ")", "[", "]", "<",
    "<=", ">", ">=", ":", ";", "->", "<-", ",", "asm{}",
];

/// Lexemes that the tokenizer complains of, refuses or reads in a special way.
const ODD: [&str; 44] = [
    "$", "?", "@", "'", "\\", "`", "%", "\u{0}", "\u{7F}", "\"", "\"\\q\"", "\"\\\\\"", "\"a\\", "asm",
    "asm x", "asm é", "é", "aé", "1é", "-é", "- ", "-x", "--", "// c\n", "//", "0b2",
    "€", "a€", "1€", "asm €", "-€", "«", "§", "×", "a÷b", "\u{80}", "\u{100}", "²", "²x", "1²", "fné", "éas",
    "asm\u{A0}x", "\u{85}",
];

/// All of them, as a dictionary of libFuzzer.
pub fn dictionary() -> String {
    let bytes = |lexeme: &str| lexeme.bytes().map(|byte| format!("\\x{byte:02X}")).collect::<String>();
    LEXEMES.iter().chain(&ODD).map(|lexeme| format!("\"{}\"\n", bytes(lexeme))).collect()
}

fn any_lexeme(random: &mut Random) -> String {
    let lexeme = match random.below(20) {
        0 => random.pick(&ODD),
        1 | 2 => random.pick(&grammar::NUMBERS),
        3 => random.pick(&grammar::STRINGS),
        4..=6 => random.pick(&grammar::NAMES),
        _ => random.pick(&LEXEMES),
    };
    lexeme.to_owned()
}

/// A valid script with one to four faults.
pub fn damaged(random: &mut Random) -> Vec<u8> {
    let mut lexemes = grammar::module(random);
    if random.chance(70) {
        for _ in 0..1 + random.below(3) {
            damage_lexemes(random, &mut lexemes);
        }
    }
    let mut script: Vec<char> = grammar::joined(random, &lexemes).chars().collect();
    if random.chance(40) {
        damage_characters(random, &mut script);
    }
    script.into_iter().collect::<String>().into_bytes()
}

fn damage_lexemes(random: &mut Random, lexemes: &mut Vec<String>) {
    if lexemes.is_empty() {
        return;
    }
    let at = random.below(lexemes.len());
    match random.below(7) {
        0 | 1 => drop(lexemes.remove(at)),
        2 => lexemes.insert(at, lexemes[at].clone()),
        3 => {
            let other = random.below(lexemes.len());
            lexemes.swap(at, other);
        }
        4 => lexemes[at] = any_lexeme(random),
        5 => lexemes.insert(at, any_lexeme(random)),
        _ => lexemes.truncate(at + 1),
    }
}

fn damage_characters(random: &mut Random, script: &mut Vec<char>) {
    const NEW: [char; 32] = [
        ' ', '\n', '"', '\\', '-', '0', '9', 'x', 'b', '$', '{', '}', '(', ')', ';', '.', '*', '/', '<',
        '=', 'é', 'ß', 'ÿ', 'ª', '²', '×', '«', '\u{80}', '\u{85}', '\u{A0}', '\u{2028}', '\u{1F600}',
    ];
    if script.is_empty() {
        return;
    }
    let at = random.below(script.len());
    let new = NEW[random.below(NEW.len())];
    match random.below(6) {
        0 => drop(script.remove(at)),
        1 => script.insert(at, script[at]),
        2 => {
            let other = random.below(script.len());
            script.swap(at, other);
        }
        3 => script[at] = new,
        4 => script.insert(at, new),
        _ => script.truncate(at),
    }
}

/// Random lexemes, now and then after the opening of an item.
pub fn soup(random: &mut Random) -> Vec<u8> {
    const OPENINGS: [&str; 14] = [
        "", "", "", "fn f(){", "fn f(){a", "fn f(", "extern fn f(", "var x:", "var x:T=", "var x:T<-#",
        "type T=", "type T=struct{", "fn f(){x<-#{", "var x:T=f(",
    ];
    let separators: &[&str] = match random.below(3) {
        0 => &[" "],
        1 => &["", " ", " ", "\n", "\t", "\u{A0}"],
        _ => &["", "", "", " "],
    };
    let longest = if random.chance(10) { 150 } else { 25 };
    let count = random.below(longest);
    let crowd = random.chance(20);
    let mut script = random.pick(&OPENINGS).to_owned();
    for _ in 0..count {
        if crowd && random.chance(60) {
            script.push_str(random.pick(&["(", "[", "{", "*", "!", "a[", "f(", "struct{a:", "loop "]));
        } else {
            script.push_str(&any_lexeme(random));
        }
        script.push_str(random.pick(separators));
    }
    script.into_bytes()
}

/// Random bytes, mostly with few that are not ASCII.
pub fn bytes(random: &mut Random) -> Vec<u8> {
    let count = random.below(40);
    let mut script = Vec::new();
    match random.below(4) {
        0 => (0..count).for_each(|_| script.push(random.next() as u8)),
        1 => (0..count).for_each(|_| script.push(random.below(128) as u8)),
        2 => (0..count).for_each(|_| ascii_or_character(random, &mut script)),
        _ => {
            script = soup(random);
            let at = random.below(script.len() + 1);
            let piece = piece(random);
            script.splice(at..at, piece);
        }
    }
    script
}

fn ascii_or_character(random: &mut Random, script: &mut Vec<u8>) {
    if random.chance(8) {
        script.extend(piece(random));
    } else {
        script.extend(random.pick(&["\"", "//", "-", "a", " ", "\n", "asm{", "}", "1", "\\", ";"]).bytes());
    }
}

/// A character above 127, mostly one of two bytes, or a sequence near one.
fn piece(random: &mut Random) -> Vec<u8> {
    if random.chance(50) {
        let character = char::from_u32(0x80 + random.below(0xA0) as u32).unwrap();
        return character.to_string().into_bytes();
    }
    if random.chance(50) {
        let character = char::from_u32(random.below(0x11_0000) as u32).unwrap_or('\u{80}');
        return character.to_string().into_bytes();
    }
    let mut piece = vec![0x80 + random.below(128) as u8];
    for _ in 0..random.below(4) {
        piece.push(*random.pick(&[&0x7F, &0x80, &0x8F, &0x90, &0x9F, &0xA0, &0xBF, &0xC0]));
    }
    piece
}

/// First bytes at the bounds of their groups.
const FIRST: [u8; 20] = [
    0x80, 0xBF, 0xC0, 0xC1, 0xC2, 0xDF, 0xE0, 0xE1, 0xEC, 0xED, 0xEE, 0xEF, 0xF0, 0xF1, 0xF3, 0xF4, 0xF5, 0xF7,
    0xF8, 0xFF,
];

/// First bytes above 127, those at bounds first, with the bytes at the bounds after them, in a string.
pub fn utf8(count: usize, each: &mut dyn FnMut(&[u8])) {
    const SECOND: [u8; 8] = [0x7F, 0x80, 0x8F, 0x90, 0x9F, 0xA0, 0xBF, 0xC0];
    const LATER: [u8; 4] = [0x80, 0xBF, 0x7F, 0xC0];
    let others = (0x80..=0xFF).filter(|byte| !FIRST.contains(byte));
    for first in FIRST.into_iter().chain(others).take(count) {
        quoted(&[first], each);
        for second in SECOND {
            quoted(&[first, second], each);
            each(&[b'a', first, second]);
            for third in LATER {
                quoted(&[first, second, third], each);
            }
            for third in &LATER[..2] {
                for fourth in LATER {
                    quoted(&[first, second, *third, fourth], each);
                }
            }
        }
    }
}

fn quoted(bytes: &[u8], each: &mut dyn FnMut(&[u8])) {
    each(&[b"use \"", bytes, b"\";"].concat());
}

/// All sequences of lexemes up to a length, each in three places.
pub fn sequences(length: usize, each: &mut dyn FnMut(&[u8])) {
    for count in 0..=length {
        all_of_length(count, &mut |words| {
            each(words.as_bytes());
            each(format!("fn f(){{ {words} }}").as_bytes());
            each(format!("var x: T = {words}").as_bytes());
        });
    }
}

fn all_of_length(count: usize, each: &mut dyn FnMut(&str)) {
    let total = LEXEMES.len().pow(count as u32);
    for mut number in 0..total {
        let mut words = Vec::new();
        for _ in 0..count {
            words.push(LEXEMES[number % LEXEMES.len()]);
            number /= LEXEMES.len();
        }
        each(&words.join(" "));
    }
}

/// A character of each class and some that no class parts; the characters of two bytes at bounds of their classes, and
/// bytes that are none of them by themselves.
const PIECES: [&[u8]; 38] = [
    b"a", b"_", b"0", b"1", b"x", b"b", b"-", b">", b"<", b"=", b"/", b"\"", b"\\", b".", b"*", b"{", b"}", b";", b"$",
    b" ", b"\n", b"asm", b"fn", b"\xC2\x80", b"\xC2\x85", b"\xC2\xA0", b"\xC2\xAA", b"\xC2\xB2", b"\xC2\xBF",
    b"\xC3\x80", b"\xC3\x97", b"\xC3\xBF", b"\xC4\x80", b"\xC2", b"\xC3", b"\xC4", b"\x80", b"\xBF",
];

/// All scripts of up to so many pieces.
pub fn pieces(length: usize, each: &mut dyn FnMut(&[u8])) {
    for count in 0..=length {
        for mut number in 0..PIECES.len().pow(count as u32) {
            let mut script = Vec::new();
            for _ in 0..count {
                script.extend(PIECES[number % PIECES.len()]);
                number /= PIECES.len();
            }
            each(&script);
        }
    }
}

/// All scripts of up to so many bytes.
pub fn short(length: usize, each: &mut dyn FnMut(&[u8])) {
    for count in 0..=length {
        for number in 0..1_usize << (8 * count) {
            let script: Vec<u8> = (0..count).map(|at| (number >> (8 * at)) as u8).collect();
            each(&script);
        }
    }
}
