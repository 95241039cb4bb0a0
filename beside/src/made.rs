//! Hand-made records for Read, each with the number that the rules of docs/FORMAT.md give it.

use crate::altered;
use formats::{Passed, Token, TokenError, Tokens, ASSEMBLY, FILE_SIZE, MINUS, PLACE_LIMIT, TEXT_LIMIT};
use marked::losses;

pub struct Case {
    pub sort: &'static str,
    /// 0, or the refusal
    pub number: u8,
    pub passed: Passed,
}

/// Adds the cases of a sort.
type Sort = fn(&mut Made);

const SORTS: [(&str, Sort); 15] = [
    ("kinds", kinds),
    ("places", places),
    ("bases and last words", bases),
    ("losses", lost),
    ("where texts stand", texts),
    ("ends of texts", ends),
    ("UTF-8", utf8),
    ("digits", digits),
    ("token errors", errors),
    ("counts", counts),
    ("lengths of slices", lengths),
    ("file slices", file_slices),
    ("refusals of the parser", parser),
    ("two reasons", priority),
    ("one rule", one_rule),
];

pub fn cases() -> Vec<Case> {
    let mut made = Made { sort: "", cases: Vec::new() };
    for (sort, add) in SORTS {
        made.sort = sort;
        add(&mut made);
    }
    made.cases
}

struct Made {
    sort: &'static str,
    cases: Vec<Case>,
}

impl Made {
    /// Records in slices of their own length.
    fn records(&mut self, number: u8, records: &Tokens) {
        self.passed(number, Passed::new(records));
    }

    fn passed(&mut self, number: u8, passed: Passed) {
        self.cases.push(Case { sort: self.sort, number, passed });
    }

    /// `SCRIPT` with a word of a token changed.
    fn word(&mut self, number: u8, token: usize, word: usize, value: u32) {
        let mut records = of(SCRIPT);
        records.tokens[token][word] = value;
        self.records(number, &records);
    }

    /// A token alone, with a part of a text slice.
    fn part(&mut self, number: u8, kind: u32, text: &[u8], start: u32, length: u32) {
        let token = [kind, 1, 1, start, length, 0, 0, 0];
        self.records(number, &Tokens { tokens: vec![token], errors: Vec::new(), text: text.to_vec() });
    }

    /// A good token of a kind alone, with a word changed.
    fn alone(&mut self, number: u8, kind: u32, word: usize, value: u32) {
        let mut token = match kind {
            IDENTIFIER | STRING | ASSEMBLY => [kind, 1, 1, 0, 1, 0, 0, 0],
            INTEGER => [kind, 1, 1, 0, 1, 10, 0, 0],
            _ => [kind, 1, 1, 0, 0, 0, 0, 0],
        };
        token[word] = value;
        self.records(number, &Tokens { tokens: vec![token], errors: Vec::new(), text: b"10".to_vec() });
    }

    /// `SCRIPT` with token errors.
    fn errors(&mut self, number: u8, errors: &[TokenError]) {
        self.records(number, &Tokens { errors: errors.to_vec(), ..of(SCRIPT) });
    }
}

/// Token 1 is `x`, 3 `T`, 5 `12`, 8 `s` and 10 `t`, with nothing between their texts. All stand in line 1,
/// the first three in the columns 1, 5 and 6.
const SCRIPT: &str = "var x:T=12;use \"s\";asm{t}";
const LAST: usize = 10;

// words of a token
const KIND: usize = 0;
const LINE: usize = 1;
const COLUMN: usize = 2;
const START: usize = 3;
const LENGTH: usize = 4;
const BASE: usize = 5;
const SEVENTH: usize = 6;
const EIGHTH: usize = 7;

// kinds with text
const IDENTIFIER: u32 = 1;
const INTEGER: u32 = 2;
const STRING: u32 = 3;
const TEXT_KINDS: [u32; 3] = [IDENTIFIER, STRING, ASSEMBLY];

/// The records of a script that Tokenise accepts.
fn of(script: &str) -> Tokens {
    marked::tokenised(script).expect("the script is accepted")
}

/// Tokens of one kind without text, each in a line of its own.
fn repeated(kind: u32, count: u32) -> Vec<Token> {
    (1..=count).map(|line| [kind, line, 1, 0, 0, 0, 0, 0]).collect()
}

/// `SCRIPT` in slices that a function changes.
fn passed(change: impl FnOnce(&mut Passed)) -> Passed {
    changed(SCRIPT, change)
}

fn changed(script: &str, change: impl FnOnce(&mut Passed)) -> Passed {
    let mut passed = Passed::new(&of(script));
    change(&mut passed);
    passed
}

/// What a token of a kind alone gives: nothing is after `type` and `use`.
fn number_alone(kind: u32) -> u8 {
    if [15, 18].contains(&kind) { 11 } else { 0 }
}

/// A type with so many stars.
fn stars(count: usize, after: &str) -> String {
    format!("var p: {}{after}", "*".repeat(count))
}

/// A script in the lines after some tokens that have a line each.
fn after(before: Vec<Token>, script: &str) -> Tokens {
    let mut records = of(script);
    for token in &mut records.tokens {
        token[LINE] += before.len() as u32;
    }
    records.tokens = [before, records.tokens].concat();
    records
}

fn kinds(made: &mut Made) {
    for kind in 1..=54 {
        let mut alone = |number: u8, word: usize, value: u32| made.alone(number, kind, word, value);
        alone(number_alone(kind), KIND, kind);
        if kind == INTEGER {
            alone(0, BASE, 2);
            alone(0, BASE, 16);
            alone(8, BASE, 0);
        } else {
            alone(8, BASE, 10);
        }
        let number = if [IDENTIFIER, INTEGER, STRING, ASSEMBLY].contains(&kind) { 0 } else { 8 };
        alone(number, START, 1);
        alone(number, LENGTH, if number == 0 { 2 } else { 1 });
    }
    for kind in [0, 55, 256 + 5, 65_536 + 5, u32::MAX] {
        made.word(8, 0, KIND, kind);
        made.word(8, LAST, KIND, kind);
    }
}

fn places(made: &mut Made) {
    for word in [LINE, COLUMN] {
        made.word(0, LAST, word, PLACE_LIMIT);
        made.word(8, LAST, word, PLACE_LIMIT + 1);
        made.word(8, LAST, word, 65_536 + 20);
        made.word(8, LAST, word, u32::MAX);
        made.word(0, 0, word, 1);
        made.word(8, 0, word, 0);
        made.word(8, LAST, word, 0);
    }
    // both the largest
    let mut records = of(SCRIPT);
    records.tokens[LAST][LINE] = PLACE_LIMIT;
    records.tokens[LAST][COLUMN] = PLACE_LIMIT;
    made.records(0, &records);
    // in a line: next to the previous token, the same place, before it
    made.word(0, 1, COLUMN, 2);
    made.word(8, 1, COLUMN, 1);
    made.word(8, 2, COLUMN, 5);
    made.word(8, 2, COLUMN, 4);
    // a token in a later line, and what is after it not
    made.word(8, 3, LINE, 2);
    // what is after it too: columns begin again
    for column in [1, 7, PLACE_LIMIT] {
        let mut records = of(SCRIPT);
        for token in &mut records.tokens[4..] {
            token[LINE] = 2;
        }
        records.tokens[3][COLUMN] = PLACE_LIMIT;
        records.tokens[4][COLUMN] = column;
        let number = if column < 9 { 0 } else { 8 };
        made.records(number, &records);
    }
    // an earlier line with a later column
    let mut records = of(SCRIPT);
    for token in &mut records.tokens {
        token[LINE] = 3;
    }
    made.records(0, &records);
    records.tokens[6][LINE] = 2;
    made.records(8, &records);
    // a line and a place for each token, with gaps
    let mut records = of(SCRIPT);
    for (at, token) in records.tokens.iter_mut().enumerate() {
        token[LINE] = 1_000 * at as u32 + 7;
        token[COLUMN] = PLACE_LIMIT - 1_000 * at as u32;
    }
    made.records(0, &records);
}

fn bases(made: &mut Made) {
    for base in [0, 1, 2, 3, 8, 9, 10, 11, 15, 16, 17, 256 + 10, 65_536 + 16, u32::MAX] {
        let good = [10, 16].contains(&base);
        // 12 is no number of base 2
        made.word(if good { 0 } else { 8 }, 5, BASE, base);
    }
    for token in [0, 1, 8, LAST] {
        for base in [1, 2, 16, 65_536, u32::MAX] {
            made.word(8, token, BASE, base);
        }
    }
    for token in [0, 1, 5, 8, LAST] {
        // the last is an assembly
        made.word(if token == LAST { 0 } else { 8 }, token, SEVENTH, 1);
        made.word(8, token, SEVENTH, u32::MAX);
        made.word(8, token, EIGHTH, 1);
        made.word(8, token, EIGHTH, u32::MAX);
    }
}

/// Tokens of a kind at which something was lost, each in a line of its own.
fn losing(kind: u32, count: u32) -> Vec<Token> {
    let mut tokens = repeated(kind, count);
    tokens.iter_mut().for_each(|token| token[SEVENTH] = 1);
    tokens
}

/// The seventh word, and the entries of the full list that it makes.
fn lost(made: &mut Made) {
    for kind in 1..=54 {
        let lost = if losses::can_lose(kind) { 0 } else { 8 };
        for (number, value) in [(number_alone(kind), 0), (lost, 1), (8, 2), (8, u32::MAX)] {
            made.alone(number, kind, SEVENTH, value);
        }
    }
    // after another token, of kinds that have something in common with the two
    for kind in [IDENTIFIER, STRING, 22, 24, 51, 53] {
        let tokens = [[50, 1, 1, 0, 0, 0, 0, 0], [kind, 1, 2, 0, 0, 0, 1, 0]].to_vec();
        made.records(8, &Tokens { tokens, ..Tokens::default() });
    }
    for kind in [MINUS, ASSEMBLY] {
        // some of them are 1 in 8, 16 or 31 bits
        for value in [3, 4, 256, 256 + 1, 65_536, 65_536 + 1, 1 << 31, (1 << 31) + 1] {
            made.alone(8, kind, SEVENTH, value);
        }
    }
    // the other words beside it
    for (script, at, kind) in [("var x:T=a -bc;", 6, 22), ("asm{x", 0, IDENTIFIER)] {
        let changes = [(0, SEVENTH, 1), (0, SEVENTH, 0), (8, EIGHTH, 1), (8, BASE, 1), (8, LINE, 0), (8, KIND, kind)];
        for (number, word, value) in changes {
            made.passed(number, changed(script, |h| h.tokens[8 * at + word] = value));
        }
    }
    // what the records say counts, whatever was in the script
    for script in [
        "fn f(){left -dx;}", "var x:T=a - b -c;", "asm{x}", "asm{x", "asm{}asm{", "asm{}var x:T=a -b;",
        "fn f(){a -b;asm{c}d - e;}asm{",
    ] {
        let records = of(script);
        made.records(0, &records);
        let mut all = altered::spread(&records);
        for at in (0..records.tokens.len()).filter(|at| losses::can_lose(records.tokens[*at][KIND])) {
            let mut other = records.clone();
            other.tokens[at][SEVENTH] ^= 1;
            made.records(0, &other);
            all.tokens[at][SEVENTH] = 1;
        }
        made.records(0, &all);
    }
    losses_and_errors(made);
    losses_refused(made);
}

/// 255 entries, and what the parser meets with them.
fn losses_and_errors(made: &mut Made) {
    // no item begins with a Minus, so that each is two entries
    for (number, kind, count) in
        [(0, ASSEMBLY, 255), (12, ASSEMBLY, 256), (12, ASSEMBLY, 257), (0, MINUS, 127), (12, MINUS, 128)]
    {
        made.records(number, &Tokens { tokens: losing(kind, count), ..Tokens::default() });
    }
    let (read, refused) = (stars(95, "T;"), stars(96, "T;"));
    let entries = [
        (0, 254, ";"),
        (12, 255, ";"),
        (0, 249, ";;;;;;"),
        (12, 250, ";;;;;;"),
        (0, 254, "fn f(){c(w -1);}"),
        (12, 255, "fn f(){c(w -1);}"),
        (11, 255, "type"),
        (12, 256, "type"),
        (11, 254, ";use"),
        (12, 255, ";use"),
        (12, 256, "var x:T=a."),
        (0, 255, &read),
        (10, 255, &refused),
        (12, 256, &refused),
    ];
    for (number, count, script) in entries {
        made.records(number, &after(losing(ASSEMBLY, count), script));
    }
    // entered before the parser begins, also where they stand after what it meets
    for (number, script, count) in [(0, ";;;;;;", 249), (12, ";;;;;;", 250), (10, &refused, 255), (12, &refused, 256)] {
        let mut records = of(script);
        let mut later = losing(ASSEMBLY, 1 + count).split_off(1);
        later.iter_mut().for_each(|token| token[START] = records.text.len() as u32);
        records.tokens.extend(later);
        made.records(number, &records);
    }
}

/// 256 losses beside the other refusals.
fn losses_refused(made: &mut Made) {
    let mut with = |number: u8, change: fn(&mut Passed)| {
        let mut passed = Passed::new(&Tokens { tokens: losing(ASSEMBLY, 256), ..Tokens::default() });
        change(&mut passed);
        made.passed(number, passed);
    };
    with(12, |h| h.file = 70_000);
    with(3, |h| h.file = FILE_SIZE - 1);
    with(8, |h| h.tokens[8 * 255 + EIGHTH] = 1);
    with(8, |h| h.tokens[8 * 255 + SEVENTH] = 2);
    with(8, |h| h.error_count = 1);
    with(9, |h| h.token_count = 0);
    with(0, |h| h.token_count = 255);
}

fn texts(made: &mut Made) {
    // at the previous text's end, and a byte before it
    for (token, start) in [(1, 0), (3, 1), (5, 2), (8, 4), (LAST, 5)] {
        made.word(0, token, START, start);
        if start > 0 {
            made.word(8, token, START, start - 1);
        }
    }
    // the same text twice, and texts in another order
    made.word(8, LAST, START, 0);
    let mut records = of(SCRIPT);
    records.tokens[1][START] = 1;
    records.tokens[3][START] = 0;
    made.records(8, &records);
    // longer than its own, so that the next begins before its end
    made.word(8, 1, LENGTH, 2);
    // shorter, so that something stands between
    made.word(0, 5, LENGTH, 1);
    // empty texts, that of an integer not
    for (number, token) in [(0, 1), (0, 3), (8, 5), (0, 8), (0, LAST)] {
        made.word(number, token, LENGTH, 0);
    }
    // the end of an empty text counts
    for (number, start) in [(0, 4), (0, 5), (8, 6)] {
        let mut records = of(SCRIPT);
        records.tokens[8][START] = start;
        records.tokens[8][LENGTH] = 0;
        made.records(number, &records);
    }
    // a slice with other bytes before, between and after the texts
    let mut records = of(SCRIPT);
    records.text = b"\xFF\xFFx\xFFT\xC3\xA912\x80\x80\x80s\xF4t\xED\xA0".to_vec();
    for (token, start) in [(1, 2), (3, 4), (5, 7), (8, 12), (LAST, 14)] {
        records.tokens[token][START] = start;
    }
    made.records(0, &records);
    // a text that takes such a byte in
    for (token, word, value) in [(1, START, 1), (1, LENGTH, 2), (3, START, 3), (8, LENGTH, 2), (LAST, LENGTH, 2)] {
        let mut records = records.clone();
        records.tokens[token][word] = value;
        made.records(8, &records);
    }
    // digits that a wrong start or length loses
    for (number, start, length) in [(8, 6, 2), (8, 6, 3), (0, 8, 1), (8, 7, 3), (8, 5, 4)] {
        let mut records = records.clone();
        records.tokens[5][START] = start;
        records.tokens[5][LENGTH] = length;
        made.records(number, &records);
    }
}

fn ends(made: &mut Made) {
    // the slice
    for (number, start, length) in
        [(0, 0, 4), (8, 0, 5), (0, 3, 1), (8, 3, 2), (0, 4, 0), (8, 4, 1), (8, 5, 0), (0, 1, 3), (8, 1, 4)]
    {
        for kind in TEXT_KINDS {
            made.part(number, kind, b"text", start, length);
        }
    }
    made.part(0, IDENTIFIER, b"", 0, 0);
    made.part(8, IDENTIFIER, b"", 0, 1);
    made.part(8, IDENTIFIER, b"", 1, 0);
    // sums above 32 bits
    for (start, length) in
        [(u32::MAX, 1), (u32::MAX, 2), (1, u32::MAX), (4, u32::MAX - 3), (u32::MAX, u32::MAX), (1 << 31, 1 << 31)]
    {
        made.part(8, IDENTIFIER, b"text", start, length);
    }
    // byte 16,384
    let most = TEXT_LIMIT as u32;
    let text = vec![b'a'; TEXT_LIMIT + 1];
    for (number, start, length) in [(0, most - 1, 1), (8, most - 1, 2), (0, most, 0), (8, most + 1, 0), (8, most, 1)] {
        made.part(number, IDENTIFIER, &text, start, length);
    }
    made.part(0, STRING, &text[1..], 0, most);
    made.part(8, STRING, &text, 0, most + 1);
    made.part(8, STRING, &text[2..], 0, most);
}

fn utf8(made: &mut Made) {
    let good: [&[u8]; 13] = [
        b"\x00", b"\x7F", b"\n", b"\xC2\x80", b"\xDF\xBF", b"\xE0\xA0\x80", b"\xED\x9F\xBF", b"\xEE\x80\x80",
        b"\xEF\xBF\xBF", b"\xF0\x90\x80\x80", b"\xF3\xBF\xBF\xBF", b"\xF4\x8F\xBF\xBF", b"a\xC3\xA9\xE2\x82\xACb",
    ];
    let bad: [&[u8]; 22] = [
        b"\x80", b"\xBF", b"\xC0\x80", b"\xC1\xBF", b"\xC3", b"\xC3(", b"\xC3\xC3", b"\xE0\x9F\xBF", b"\xE1\x80",
        b"\xE1\x80a", b"\xED\xA0\x80", b"\xED\xBF\xBF", b"\xEF\xBF", b"\xF0\x8F\xBF\xBF", b"\xF0\x90\x80",
        b"\xF0\x90\x80a", b"\xF4\x90\x80\x80", b"\xF5\x80\x80\x80", b"\xFE", b"\xFF", b"a\xC3", b"\xC3\xA9\xA9",
    ];
    for kind in TEXT_KINDS {
        for text in good {
            made.part(0, kind, text, 0, text.len() as u32);
        }
        for text in bad {
            made.part(8, kind, text, 0, text.len() as u32);
        }
        // parts of a slice that is UTF-8
        let text = "é€".as_bytes();
        for (number, start, length) in [(0, 0, 2), (8, 0, 1), (8, 1, 1), (0, 2, 3), (8, 2, 2), (8, 3, 2), (8, 1, 4)] {
            made.part(number, kind, text, start, length);
        }
    }
}

/// `var x:[N]T=N;` with N of a base and a text.
fn sized(base: u32, text: &[u8]) -> Tokens {
    let mut records = of("var x:[1]T=1;");
    let length = text.len() as u32;
    for (token, start, length) in [(4, 1, length), (6, 1 + length, 1), (8, 2 + length, length)] {
        records.tokens[token][START] = start;
        records.tokens[token][LENGTH] = length;
    }
    for token in [4, 8] {
        records.tokens[token][BASE] = base;
    }
    records.text = [b"x", text, b"T", text].concat();
    records
}

fn digits(made: &mut Made) {
    let long = "1".repeat(300);
    let good: [(u32, &[&str]); 3] = [
        (2, &["0", "1", "01", "10", &long, &long[..64], &long[..65]]),
        (
            10,
            &[
                "0", "9", "007", "0123456789", "-0", "-5", "-0123456789", "18446744073709551615",
                "18446744073709551616", &long,
            ],
        ),
        (
            16,
            &[
                "0", "9", "a", "f", "A", "F", "0123456789abcdef", "ABCDEF", "ffffffffffffffff", "10000000000000000",
                &long,
            ],
        ),
    ];
    let bad: [(u32, &[&str]); 3] = [
        (2, &["", "2", "9", "/", "a", "12", "21", "-", "-1", "--1", "1-", "0b1", "1 ", "+1", "1\0", "é"]),
        (
            10,
            &[
                "", "a", "/", ":", "-", "--", "--5", "5-", "-a", "-5a", "a5", "+5", " 5", "5 ", "5_0", "0x1", "\0", "٣",
                "5-5", "-é",
            ],
        ),
        (16, &["", "g", "G", "/", ":", "@", "`", "-", "-1", "-f", "--f", "f-", "0x1", "fg", "gf", "+f", "é"]),
    ];
    for (base, texts) in good {
        for text in texts {
            made.records(0, &sized(base, text.as_bytes()));
        }
    }
    for (base, texts) in bad {
        for text in texts {
            made.records(8, &sized(base, text.as_bytes()));
        }
    }
    made.records(8, &sized(10, b"1\xFF"));
}

fn errors(made: &mut Made) {
    for number in 1..=4 {
        made.errors(0, &[[number, 1, 1, 0]]);
    }
    let good = [2, 3, 4, 0];
    let changes: [(u8, usize, u32); 16] = [
        (8, 0, 0),
        (8, 0, 5),
        (8, 0, 256 + 1),
        (8, 0, u32::MAX),
        (8, LINE, 0),
        (0, LINE, 1),
        (0, LINE, PLACE_LIMIT),
        (8, LINE, PLACE_LIMIT + 1),
        (8, LINE, u32::MAX),
        (8, COLUMN, 0),
        (0, COLUMN, 1),
        (0, COLUMN, PLACE_LIMIT),
        (8, COLUMN, PLACE_LIMIT + 1),
        (8, COLUMN, 65_536 + 4),
        (8, 3, 1),
        (8, 3, u32::MAX),
    ];
    for (number, word, value) in changes {
        let mut error = good;
        error[word] = value;
        made.errors(number, &[error]);
        made.errors(number, &[good, error]);
    }
    // any order, and one place twice
    made.errors(0, &[[4, 9, 9, 0], [1, 1, 1, 0], [1, 1, 1, 0], [3, PLACE_LIMIT, PLACE_LIMIT, 0], [2, 9, 8, 0]]);
}

/// As much as may be passed: 2,048 tokens, 255 token errors, 255 errors of the parser, 16,384 bytes of text.
fn most() -> Tokens {
    let mut tokens = repeated(50, 255);
    let mut end = 0;
    for at in 0..1_793 {
        // 1,792 texts of nine bytes and one of the rest
        let length = if at < 1_792 { 9 } else { TEXT_LIMIT as u32 - end };
        tokens.push([ASSEMBLY, 256 + at, PLACE_LIMIT, end, length, 0, 0, 0]);
        end += length;
    }
    let errors = (1..=255).map(|line| [1 + line % 4, line, 256 - line, 0]).collect();
    let text = (0..TEXT_LIMIT).map(|at| b'a' + (at % 26) as u8).collect();
    Tokens { tokens, errors, text }
}

fn counts(made: &mut Made) {
    made.records(0, &most());
    let semicolons = Tokens { tokens: repeated(50, 2_049), ..Tokens::default() };
    made.records(8, &semicolons);
    let mut one_after = Passed::new(&semicolons);
    one_after.token_count = 2_048;
    // a 256th error of the parser
    made.passed(12, one_after);
    let errors = vec![[1, 1, 1, 0]; 256];
    made.errors(0, &errors[..255]);
    made.errors(8, &errors);
    let mut last_bad = errors[..255].to_vec();
    last_bad[254][3] = 1;
    made.errors(8, &last_bad);
    // fewer than the slice has, 9 where none, and one more
    for count in 0..=12 {
        let number = match count {
            0 => 9,
            // nothing after `use`
            8 => 11,
            12 => 8,
            _ => 0,
        };
        made.passed(number, passed(|h| h.token_count = count));
    }
    for (number, count) in [(0, 0), (0, 1), (0, 2), (8, 3)] {
        let errors = vec![1, 1, 1, 0, 2, 1, 2, 0];
        made.passed(number, passed(|h| (h.errors, h.error_count) = (errors, count)));
    }
    // counts whose words are few again in 64, 32 or 16 bits
    for count in
        [2_049, 65_536 + 1, 1 << 29, (1 << 29) + 1, (1 << 32) + 1, 1 << 61, (1 << 61) + 1, 1 << 63, u64::MAX]
    {
        made.passed(8, passed(|h| h.token_count = count));
    }
    for count in [1, 256, 65_536, 1 << 30, 1 << 32, (1 << 32) + 1, 1 << 62, (1 << 62) + 1, 1 << 63, u64::MAX] {
        made.passed(8, passed(|h| h.error_count = count));
    }
    // no tokens
    made.passed(9, changed("", |_| ()));
    made.passed(9, changed("$", |_| ()));
    made.passed(9, changed("", |h| (h.tokens, h.text) = (vec![99; 24], vec![0xFF; 9])));
}

/// The slices against the counts.
fn lengths(made: &mut Made) {
    for missing in [1, 7, 8] {
        made.passed(8, passed(|h| h.tokens.truncate(8 * (LAST + 1) - missing)));
    }
    for after in [1, 7, 8, 9] {
        made.passed(0, passed(|h| h.tokens.extend(vec![u32::MAX; after])));
    }
    let errors = vec![1, 1, 1, 0, 2, 1, 2, 0];
    let with_errors = |length: usize| {
        let mut errors = errors.clone();
        errors.resize(length, u32::MAX);
        passed(|h| (h.errors, h.error_count) = (errors, 2))
    };
    for length in [0, 4, 7] {
        made.passed(8, with_errors(length));
    }
    for length in [8, 9, 11, 12] {
        made.passed(0, with_errors(length));
    }
    // what is not stated may be bad
    made.passed(0, passed(|h| h.errors = vec![0; 4]));
    made.passed(0, passed(|h| h.errors = vec![u32::MAX; 3]));
    made.passed(9, passed(|h| (h.token_count, h.tokens) = (0, vec![u32::MAX; 3])));
    made.passed(8, passed(|h| h.tokens.clear()));
    for (number, length) in [(0, 6), (8, 5), (8, 0), (0, 7), (0, 20_000)] {
        made.passed(number, passed(|h| h.text.resize(length, 0xFF)));
    }
}

fn file_slices(made: &mut Made) {
    for script in [SCRIPT, "fn f(){c(w -1);}", "fn f"] {
        for file in [0, 1, FILE_SIZE - 1] {
            made.passed(3, changed(script, |h| h.file = file));
        }
        for file in [FILE_SIZE, FILE_SIZE + 1, 70_000] {
            made.passed(0, changed(script, |h| h.file = file));
        }
    }
    // zeros to the end of a longer slice, or nothing changed in it
    made.passed(11, changed("type", |h| h.file = 70_000));
    made.passed(9, changed("", |h| h.file = 70_000));
    made.passed(8, passed(|h| (h.file, h.tokens[0]) = (70_000, 0)));
}

fn parser(made: &mut Made) {
    let groups = |count: usize| format!("var x:T={}a{};", "(".repeat(count), ")".repeat(count));
    let nested = [
        (0, stars(95, "T;")),
        (10, stars(96, "T;")),
        (0, stars(95, "")),
        (10, stars(96, "")),
        (0, groups(47)),
        (10, groups(48)),
        (11, "type".to_owned()),
        (11, "use".to_owned()),
        (11, "var x:T=a.".to_owned()),
        (11, "fn f(){a.".to_owned()),
        (11, "distinct internal type".to_owned()),
        (0, "type type".to_owned()),
        (0, "use use".to_owned()),
        (0, "var x:T=a. .".to_owned()),
    ];
    for (number, script) in nested {
        made.records(number, &of(&script));
        // with token errors the slice is filled with zeros too
        made.records(number, &Tokens { errors: vec![[4, 1, 1, 0]; 3], ..of(&script) });
    }
    // an error for each semicolon
    let after = |count: u32, script: &str| after(repeated(50, count), script);
    let entries = [
        (0, 255, SCRIPT),
        (12, 256, SCRIPT),
        (0, 252, "fn f"),
        (12, 253, "fn f"),
        (11, 255, "type"),
        (12, 256, "type"),
        (0, 254, "fn f(){c(w -1);}"),
        (12, 255, "fn f(){c(w -1);}"),
    ];
    for (number, count, script) in entries {
        made.records(number, &after(count, script));
    }
    for (number, count, depth) in [(0, 255, 95), (10, 255, 96), (12, 256, 96)] {
        made.records(number, &after(count, &stars(depth, "T;")));
    }
    made.records(10, &after(255, &groups(48)));
    for script in ["use", "var x:T=a."] {
        made.records(11, &after(255, script));
    }
}

/// 3 before 8, 8 before 9 and before what the parser meets.
fn priority(made: &mut Made) {
    let short = FILE_SIZE - 1;
    made.passed(3, passed(|h| (h.file, h.tokens[0]) = (short, 0)));
    made.passed(3, passed(|h| (h.file, h.token_count) = (short, u64::MAX)));
    made.passed(3, passed(|h| (h.file, h.error_count) = (short, 256)));
    made.passed(3, passed(|h| (h.file, h.token_count) = (short, 0)));
    made.passed(3, changed("type", |h| h.file = short));
    made.passed(3, changed("", |h| h.file = 0));
    made.passed(8, passed(|h| (h.token_count, h.error_count) = (0, 1)));
    made.passed(8, passed(|h| (h.token_count, h.error_count) = (0, 256)));
    made.passed(8, passed(|h| (h.token_count, h.error_count, h.errors) = (0, 1, vec![5, 1, 1, 0])));
    made.passed(8, passed(|h| (h.tokens[0], h.error_count, h.errors) = (0, 1, vec![5, 1, 1, 0])));
    made.passed(8, changed("type", |h| h.tokens[7] = 1));
    made.passed(8, changed("type", |h| (h.error_count, h.errors) = (1, vec![1, 1, 1, 1])));
    made.passed(8, changed(&format!("var p:{}T;", "*".repeat(96)), |h| h.text.clear()));
}

/// Records of which one rule alone is broken, or which a limit just lets pass, in more than one place.
fn one_rule(made: &mut Made) {
    // a token by itself: only its own line and column count
    for token in [[50, 1, 1, 0, 0, 0, 0, 0], [IDENTIFIER, 1, 1, 0, 1, 0, 0, 0], [INTEGER, 1, 1, 0, 1, 10, 0, 0]] {
        for word in [LINE, COLUMN] {
            for (number, value) in [(8, 0), (0, PLACE_LIMIT), (8, PLACE_LIMIT + 1)] {
                let mut token = token;
                token[word] = value;
                made.records(number, &Tokens { tokens: vec![token], errors: Vec::new(), text: b"1".to_vec() });
            }
        }
    }
    // each token in a line of its own: a column need not be after the previous one
    let apart = altered::spread(&of(SCRIPT));
    for at in 0..=LAST {
        for (number, column) in [(8, 0), (0, 1), (0, PLACE_LIMIT), (8, PLACE_LIMIT + 1)] {
            let mut records = apart.clone();
            records.tokens[at][COLUMN] = column;
            made.records(number, &records);
        }
    }
    // kinds with no text
    for at in [0, 2, 4, 6, 7, 9] {
        for kind in [0, 55] {
            made.word(8, at, KIND, kind);
        }
    }
    // bases
    for (base, text) in [(8, "0"), (8, "7"), (8, "12"), (16, "-0"), (16, "-a"), (2, "-0")] {
        made.records(8, &sized(base, text.as_bytes()));
    }
    // the end of an empty text counts
    for (at, start) in [(1, 2), (3, 3), (8, 6)] {
        let mut records = of(SCRIPT);
        records.tokens[at][START] = start;
        records.tokens[at][LENGTH] = 0;
        made.records(8, &records);
    }
    // counts that the parser would take
    for (number, count) in [(0, 2_048), (8, 2_049)] {
        made.records(number, &Tokens { tokens: repeated(ASSEMBLY, count), ..Tokens::default() });
    }
    for (number, count) in [(0, 255), (8, 256)] {
        for script in ["var x:T;", "fn f", "asm{}"] {
            made.records(number, &Tokens { errors: vec![[4, 1, 1, 0]; count], ..of(script) });
        }
    }
    for (number, error) in [(8, 0), (0, 1), (0, 4), (8, 5)] {
        made.records(number, &Tokens { errors: vec![[error, 1, 1, 0]], ..of("fn f") });
    }
    // the end of the token slice inside a record, and of the error slice
    for words in [1, 7] {
        made.passed(8, changed("fn f", |h| h.tokens.truncate(8 + words)));
    }
    made.passed(8, changed("fn f", |h| (h.errors, h.error_count) = (vec![4, 1, 1], 1)));
    // 3 before 8, and 8 before 9
    for script in ["fn f", "type"] {
        made.passed(3, changed(script, |h| (h.file, h.tokens[5]) = (FILE_SIZE - 1, 1)));
        made.passed(8, changed(script, |h| (h.token_count, h.errors, h.error_count) = (0, vec![0; 4], 1)));
    }
}
