//! Each character from 128 to 300, in places where its class is asked or where it is not.

/// What stands around a character, whose place is `@`; what tells the classes apart comes first.
const AROUND: [&str; 60] = [
    "var @: T;", "var a@: T;", "var@x: T;", "asm@{}", "asm @{}", "var x: T;@",
    // alone, with others, and with what else a word has
    "@", "@@", "@;", ";@", "@ @", "\n@", "@\n@;", "a@b", "@a", "@_", "_@", "@1", "é@é", "a @ b", "@ a -1",
    // keywords and assembly
    "fn@", "@fn", "@asm{}", "asm@", "asm\u{A0}@{}", "asm \n@", "asm {a}@;", "asm{@}", "asm_@ {}", "fn@f(){}", "if@else",
    // numbers and dashes
    "1@", "0@", "0x@", "0xA@", "0b1@1", "-1@", "-@", "-@1", "a -@b", "--@", "- @", "->@",
    // strings, comments, and places after them
    "use \"@\";", "\"\\@\"", "\"@", "\"a\"@", "//@\n;", "//\n@", "/@",
    // dots and operators
    "fn f(){a.@;}", "a.@*", ".@", "a+@", "<@-", "=@=", "&@&", "(@)", "[@:",
];

/// Gives the scripts with some of them, each with each character.
pub fn scripts(count: usize, each: &mut dyn FnMut(&[u8])) {
    for around in AROUND.into_iter().take(count) {
        for character in '\u{80}'..='\u{12C}' {
            each(around.replace('@', &character.to_string()).as_bytes());
        }
    }
}
