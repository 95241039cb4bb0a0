//! The cases of the list of sentences: scripts with a list, a position and a slice.

use crate::{ask, damage, texts};
use formats::{Given, Sentences, FULL, REPORTED, SCRIPT_LIMIT, TOKEN_ERRORS};
use marked::losses;

pub const LISTS: [u32; 3] = [TOKEN_ERRORS, REPORTED, FULL];

pub fn entries(sentences: &Sentences, list: u32) -> &[String] {
    match list {
        TOKEN_ERRORS => &sentences.token_errors,
        REPORTED => &sentences.reported,
        FULL => &sentences.full,
        _ => &[],
    }
}

/// Numbers that are no list: next to those of the lists, the same in decimal, and with the same low byte or high byte.
pub const NO_LISTS: [u32; 18] = [
    0, 1, 60, 61, 62, 0x5F, 0x63, 0x7F, 0x160, 0x161, 0x162, 0x8061, 0x1_0060, 0x1_0061, 0x1_0062, 0x6100_0000,
    0x8000_0061, 0xFFFF_FFFF,
];

/// Positions after any list's end; some have the low bytes of a position in it.
pub const FAR: [u64; 9] = [255, 256, 257, 65_536, 1 << 31, 1 << 32, (1 << 32) + 1, 1 << 63, u64::MAX];

/// Gives cases to a function, with the name of their part.
struct Cases<'a> {
    each: &'a mut dyn FnMut(&str, Given),
    part: &'static str,
    turn: usize,
}

impl Cases<'_> {
    fn put(&mut self, script: &[u8], list: u32, position: u64, slice: usize) {
        (self.each)(self.part, Given::Sentence { script: script.to_vec(), list, position, slice });
    }

    /// With a slice that is so many bytes longer or shorter than the sentence.
    fn exact(&mut self, script: &[u8], list: u32, position: u64, more: isize) {
        let sentences = ask::answer(script).sentences;
        let bytes = entries(&sentences, list).get(position as usize).map_or(0, String::len);
        self.put(script, list, position, bytes.saturating_add_signed(more));
    }

    /// The parser's first error in the full list, or the first of the reported one in each second turn where it is the
    /// same; in some turns with a slice that is longer, or also with one that is too short.
    fn first(&mut self, script: &str) {
        let script = script.as_bytes();
        self.turn += 1;
        let answer = ask::answer(script);
        let losses = answer.tokenised.map_or(0, |records| losses::entries(&records).len());
        let Sentences { reported, full, .. } = answer.sentences;
        let same = reported.first() == full.get(losses);
        let (list, position) = if self.turn % 2 == 0 && same { (REPORTED, 0) } else { (FULL, losses as u64) };
        self.exact(script, list, position, [0, 1, 0, 0, 9][self.turn % 5]);
        if self.turn % 7 == 0 {
            self.exact(script, list, position, -1);
        }
    }

    /// Each entry of each list, and one past each end.
    fn all(&mut self, script: &str) {
        let sentences = ask::answer(script.as_bytes()).sentences;
        for list in LISTS {
            for position in 0..=entries(&sentences, list).len() {
                self.exact(script.as_bytes(), list, position as u64, 0);
            }
        }
    }
}

/// The cases that are written out here.
pub fn made(each: &mut dyn FnMut(&str, Given)) {
    type Part = fn(&mut Cases);
    let parts: [(&'static str, Part); 11] = [
        ("kinds", kinds),
        ("ends", ends),
        ("characters", characters),
        ("names", names),
        ("texts", quoted),
        ("token errors", token_errors),
        ("losses", lost),
        ("positions", positions),
        ("slices", slices),
        ("refusals", refusals),
        ("limits", limits),
    ];
    for (name, part) in parts {
        part(&mut Cases { each, part: name, turn: 0 });
    }
}

/// Cases of any script: of each list with entries one, and of one without now and then.
pub fn of_script(script: &[u8], turn: usize, each: &mut dyn FnMut(Given)) {
    let sentences = ask::answer(script).sentences;
    for (at, list) in LISTS.into_iter().enumerate() {
        let turn = turn + at;
        let entries = entries(&sentences, list);
        if entries.is_empty() && turn % 8 > 0 {
            continue;
        }
        let count = entries.len();
        let position = [0, count.saturating_sub(1), count / 2, count / 3, count][turn % 5];
        let bytes = entries.get(position).map_or(0, String::len);
        let slice = [bytes, bytes + turn % 30, bytes, bytes.saturating_sub(1)][turn % 4];
        each(Given::Sentence { script: script.to_vec(), list, position: position as u64, slice });
    }
}

/// Openings after which an error names no token; before a statement and in one; before a value and in one.
const MORE_OPENINGS: [&str; 11] = [
    "fn", "fn f(", "type", "use", "var x:[", "fn f(){", "fn f(){a", "var x:T=", "var x:T=a.", "var x:T<-#{",
    "var x:T=f(1",
];

fn openings() -> impl Iterator<Item = &'static str> {
    texts::OPENINGS.into_iter().chain(MORE_OPENINGS)
}

/// Each kind after each opening, and some with other texts.
fn kinds(cases: &mut Cases) {
    const TEXTS: [&str; 10] = ["_a9", "007", "0x", "0xAb", "0b10", "-12", "\"\"", "asm{ a }", "asm {", "légende"];
    for opening in openings() {
        for lexeme in damage::LEXEMES.iter().chain(&TEXTS) {
            // a Minus swallows the blank; `type` and `use` need a token after them
            cases.first(&format!("{opening} {lexeme} a"));
        }
    }
}

/// The end of the script after each opening.
fn ends(cases: &mut Cases) {
    let more = ["fn f(){loop", "var x:T=", "var x:T=(", "var x:T=f(", "type T=", "fn f(){if a b;else", "var x:T<-#[a"];
    for opening in openings().chain(more) {
        cases.all(opening);
    }
}

/// A text as a String and as an assembly, where it can be one.
fn with_text(cases: &mut Cases, text: &str) {
    if !text.contains(['"', '\\']) {
        cases.first(&format!("\"{text}\""));
    }
    if !text.contains('}') {
        cases.first(&format!("var x:asm{{{text}}}"));
    }
}

/// Each character up to 127, and characters of each length: at bounds, printable or not, with each hexadecimal digit.
fn characters(cases: &mut Cases) {
    let above = [
        0x80, 0x85, 0xA0, 0xAD, 0xB5, 0xE9, 0xFF, 0x100, 0x300, 0x3B1, 0x7FF, 0x800, 0x905, 0xABC, 0xDEF, 0xFFF, 0x1000,
        0x200B, 0x2028, 0x20AC, 0x3000, 0x4E2D, 0xD7FF, 0xE000, 0xFEFF, 0xFFFD, 0xFFFF, 0x1_0000, 0x1_2345, 0x1_F600,
        0x6_789A, 0xB_CDEF, 0xF_FFFF, 0x10_0000, 0x10_FEDC, 0x10_FFFF,
    ];
    for character in (0..0x80).chain(above).map(|code| char::from_u32(code).unwrap()) {
        with_text(cases, &character.to_string());
        with_text(cases, &format!("a{character}0{character}"));
        if character > '\u{7F}' {
            cases.first(&format!("// {character}\n+"));
        }
    }
}

/// Each letter above 127 at the start of a name, and each character above 127 that a name may have in it.
fn names(cases: &mut Cases) {
    for character in ('\u{80}'..='\u{FF}').filter(|c| c.is_alphanumeric()) {
        if character.is_alphabetic() {
            cases.first(&character.to_string());
        }
        cases.first(&format!("x{character}0 a"));
    }
    for name in ["légende", "Maß", "é\u{A0}é", "ÿÿ×", "×é", "_ª", "x²y³", "fné", "asmé{", "é\né"] {
        for opening in ["", "extern ", "var x:[", "type T ", "fn f(a:T ", "var x:T<-#", "é ", "\"é\"-×"] {
            cases.first(&format!("{opening}{name} "));
        }
    }
}

/// Texts that a sentence could confuse with another.
fn quoted(cases: &mut Cases) {
    let texts = [
        "", "\", 10)", "\", 16", "\")", "\") in list", ", got end of file", "\"\"", "\\\"", "\\\\", "\\\\\"", "\\n",
        "\\0", "\\\\0", "\\u{0", "\\u{7f", "\\'", "'", "''", "\0", "\00", "\01", "\0\0", "\\\0", "0", "\0u{0", "\r\n",
        "\n\r\t\"\\", "\tmov a, b\n\tadd \"a\"\n", "{", "{{", "é", "éé", "é\"é", "\\é", "e\u{301}", "\u{301}",
        "\u{1F600}\u{200D}\u{1F525}", "ß\u{0}ß", "\u{7F}\u{80}", "a\u{AD}b", "Identifier(\"a\")", "unexpected token",
        "\u{10FFFF}\u{10FFFF}", "0123456789", "abcdefABCDEF", "\u{1B}[0m", "%s%n", "`", "$",
    ];
    for text in texts {
        with_text(cases, text);
        for opening in ["extern asm{", "fn f(a:T asm{", "var x:T<-#asm{", "var x:T=asm{", "type T=asm{"] {
            cases.first(&format!("{opening}{text}}}"));
        }
    }
    for text in ["\\n", "\\r", "\\t", "\\r\\n", "a\\tb\\n", "//", "}", "", "\\q", "a\\qb"] {
        for opening in ["", "extern ", "var x:", "var x:T<-#", "fn f(a:T "] {
            cases.first(&format!("{opening}\"{text}\" "));
        }
    }
    let numbers =
        ["0", "00", "007", "-0", "-007", "-0x1", "0b", "0b2", "0x", "0xFf", "0x00", "1a", "99999999999999999999"];
    for number in numbers {
        for opening in ["", "var x:", "type T ", "fn f(a:T ", "var x:T<-#", "var x:["] {
            cases.first(&format!("{opening}{number} "));
        }
    }
}

/// Each token error, and each character that no token begins with: it stands as it is.
fn token_errors(cases: &mut Cases) {
    let scripts = [
        "\"\\q\" a", "\"\\\" a", "\"a", "a \"", "asm a", "a asm", "\"\\q\\q", "a \"\\", "$asm x\"\\q\" \"", "\"\\é\"",
    ];
    for script in scripts {
        cases.all(script);
    }
    for character in ('\0'..='\u{FF}').filter(|character| !character.is_whitespace()) {
        let script = format!("{character} a");
        let script = script.as_bytes();
        if !ask::answer(script).sentences.token_errors.is_empty() {
            cases.exact(script, TOKEN_ERRORS, 0, 0);
            cases.exact(script, TOKEN_ERRORS, 0, -1);
            cases.exact(script, TOKEN_ERRORS, 0, 3);
        }
    }
    for script in ["é×é²³ «a»", "asm × a", "asm é ×", "\"é\\é×\" ÷", "-××", "1² 0x×", "\"×"] {
        cases.all(script);
    }
}

/// Both losses, alone and before and between errors, with slices that are too short or longer.
fn lost(cases: &mut Cases) {
    let scripts = [
        "fn f(){left -dx;}", "asm{", "var x:T=a -bc -de;asm {nop", "+ -a + -\"asm{", "-\0-\u{10FFFF}-- - -\n",
        "$ -? asm x -y", "fn f(){c(w -1, -x);}", "fn f", "asm {x}", "var x:T=a - b;",
    ];
    for script in scripts {
        cases.all(script);
    }
    for script in ["-a", "asm{"] {
        for more in [-30, -1, 1, 70] {
            cases.exact(script.as_bytes(), FULL, 0, more);
        }
    }
    // 255 entries, and more
    let most = format!("var x:T=a{};", "-.b".repeat(254));
    for position in [0, 253, 254, 255] {
        cases.exact(format!("{most}asm{{").as_bytes(), FULL, position, 0);
        cases.exact(format!("{most}+").as_bytes(), FULL, position, 0);
    }
    for script in [format!("{most}+asm{{"), "-a".repeat(128)] {
        cases.put(script.as_bytes(), FULL, 0, 60);
        cases.put(script.as_bytes(), TOKEN_ERRORS, 0, 0);
    }
}

/// Scripts with more than one entry; their tokens of one kind have texts of their own.
const SEVERAL: [&str; 9] = [
    "a b 1 0x2 \"c\" \"d\"",
    "$ + % - ' asm x fn",
    "var x:T=f(1 2 3, 4 5);",
    "type T=struct{a:1, b:2, 3:c, asm{d} asm{e}};",
    "fn f(1 \"a\")->\"b\"{\"c\" \"d\";} \"e\"",
    "fn f(a:\"one\", b:\"three\", c:\"\"){}",
    "var x:T=g(a.1, b \"s\"); $ ) \"t\"",
    "fn f(){loop asm{a} while \"a\"",
    "\"\" a \"x\" asm{y} \"z\" 0xA 0b1 1",
];

/// Each position of some scripts, and positions and lists that are none.
fn positions(cases: &mut Cases) {
    for script in SEVERAL {
        cases.all(script);
        for (at, position) in FAR.into_iter().enumerate() {
            cases.put(script.as_bytes(), LISTS[at % 3], position, at * 20);
        }
    }
    let script = b"$ a b";
    for (at, list) in NO_LISTS.into_iter().enumerate() {
        for (position, slice) in [(0, 0), (0, 1), (0, 80), (1, 60), (u64::MAX, at)] {
            cases.put(script, list, position, slice);
        }
    }
    for script in ["use \"a\";", "asm{}"] {
        for (at, list) in [LISTS, LISTS].concat().into_iter().enumerate() {
            cases.put(script.as_bytes(), list, at as u64 / 3, 5 * at);
        }
    }
}

/// Slices of each length around that of a sentence.
fn slices(cases: &mut Cases) {
    let scripts =
        [("+", FULL), ("\"é\"", REPORTED), ("$ a", TOKEN_ERRORS), ("fn", FULL), ("var x:asm{\0}", FULL)];
    for (script, list) in scripts {
        for more in [-2, -1, 0, 1, 2, 63, 64, 255, 256] {
            cases.exact(script.as_bytes(), list, 0, more);
        }
        for slice in [0, 1, 8, 1_000] {
            cases.put(script.as_bytes(), list, 0, slice);
            cases.put(script.as_bytes(), list, 1, slice);
        }
    }
}

/// Each refusal, before the list, the position and the slice are looked at.
fn refusals(cases: &mut Cases) {
    let mut scripts: Vec<Vec<u8>> =
        ["€", "a €", "$€", "-", "a -", "", "$", "// a", "type", "use", "var x:T=a.", "+ type", "$ + use"]
            .map(|script| script.as_bytes().to_vec())
            .to_vec();
    scripts.push(b"\xC3".to_vec());
    scripts.push(b"+\"\xFF\"".to_vec());
    scripts.push(vec![b'$'; 256]);
    scripts.push(vec![b'+'; 256]);
    scripts.push([b"var p:", &[b'*'; 96][..]].concat());
    scripts.push([b"+ $ var x:T=", &[b'!'; 96][..]].concat());
    for script in scripts {
        for (list, position, slice) in
            [(FULL, 0, 60), (TOKEN_ERRORS, 0, 0), (REPORTED, 255, 7), (0, 0, 0), (0x160, 1, 9), (FULL, u64::MAX, 3)]
        {
            cases.put(&script, list, position, slice);
        }
    }
    let tokens = [b"+", &[b';'; 2_048][..]].concat();
    cases.put(&tokens, FULL, 0, 50);
    cases.put(&tokens, 0, 0, 0);
    let long = vec![b'+'; SCRIPT_LIMIT + 1];
    cases.put(&long, FULL, 0, 50);
    cases.put(&long, 0x161, 0, 0);
}

/// How many bytes the longest sentence has.
const LONGEST: usize = 98_333;

/// Errors at the limits of the reader, and the longest sentence.
fn limits(cases: &mut Cases) {
    let errors = format!("{}?+", "$".repeat(254));
    let entries = format!("{}\"last\"", "+".repeat(254));
    for (script, list) in [(&errors, TOKEN_ERRORS), (&entries, FULL), (&entries, REPORTED)] {
        for position in [0, 253, 254, 255, 256] {
            cases.exact(script.as_bytes(), list, position, 0);
        }
    }
    let tokens = format!("var x:T=!a{}; \"é\" a", "+a".repeat(1_019));
    cases.all(&tokens);
    let nested = format!("var p:{}\"\\n\"", "*".repeat(95));
    cases.all(&nested);
    cases.first(&format!("{}\"a\"", "\n".repeat(300)));
    cases.first(&format!("//{}\nasm{{a}}\"a\"", "é".repeat(300)));
    cases.exact(format!("{}a", " ".repeat(SCRIPT_LIMIT - 1)).as_bytes(), FULL, 0, 0);
    cases.exact("a".repeat(SCRIPT_LIMIT).as_bytes(), REPORTED, 0, 0);
    cases.exact("é".repeat(SCRIPT_LIMIT / 2).as_bytes(), FULL, 0, 0);
    cases.exact(format!("{} ×", "é".repeat(300)).as_bytes(), TOKEN_ERRORS, 0, 0);
    cases.first(&format!("\"{}\"", "\u{FFFF}".repeat(500)));
    cases.first(&format!("\"{}\"", "\u{10FFFF}".repeat(500)));
    cases.first(&format!("var x:asm{{{}}}", "\\".repeat(1_000)));
    let longest = format!("\"{}\"", "\u{7F}".repeat(SCRIPT_LIMIT - 2));
    assert_eq!(ask::answer(longest.as_bytes()).sentences.full[0].len(), LONGEST);
    cases.exact(longest.as_bytes(), FULL, 0, 0);
    cases.exact(longest.as_bytes(), REPORTED, 0, -1);
}
