//! Scripts that lose something without an error of the Rust: after a dash, or at the end of an assembly.

/// What stands around a character after a dash, whose place is `@`.
const AROUND: [&str; 14] = [
    // in an expression, at the end of the script, at the end of a line
    "var x:T=a -@b;", "-@", "fn f(){left -@\n}",
    // arguments, a function's body, a line of its own
    "var x:T=f(a -@, -@b);", "fn f(){a -@; return b-@c;}", "\n  -@\n  - @",
    // after other dashes and tokens, before them
    "--@-@->@", "1-@1-1 -@", "\"-@\"-@\"a\"", "//-@\n-@//", "é-@é", "asm{-@}-@asm{", "asm -@", "$-@$",
];

/// Characters above 300: at the bounds of their lengths, white space of Unicode, and with low bytes of white space.
const ABOVE: [char; 24] = [
    '\u{301}', '\u{7FF}', '\u{800}', '\u{1680}', '\u{2000}', '\u{2003}', '\u{200B}', '\u{2020}', '\u{2028}', '\u{2029}',
    '\u{202F}', '\u{205F}', '\u{20A0}', '\u{20AC}', '\u{3000}', '\u{4E2D}', '\u{D7FF}', '\u{E000}', '\u{FEFF}', '\u{FFFF}',
    '\u{10000}', '\u{1000A}', '\u{10020}', '\u{10FFFF}',
];

/// Each end of `asm`, and losses beside errors.
const OTHERS: &[&str] = &[
    // no brace, and nothing or something after one
    "asm", "asm{", "asm {", "asm {x", "asm {x}", "asm{}", "asm x", "asm asm{", "asm}", "asm\n", "asm\n{\n", "asm\n{\n}",
    // white space before the brace and to the end, of each kind
    "asm\t{\t", "asm\n{\n\n", "asm\u{B}{\u{B}", "asm\u{C}{\u{C}", "asm\r{\r\n", "asm {  ", "asm\u{85}{\u{85}",
    "asm\u{A0}{\u{A0}", "asm\u{2003}{", "asm \u{2003}{", "asm{\u{2003}", "asm{\u{2003}}",
    // quotes, braces, remarks and others in the text
    "asm{\"", "asm{\"}\"", "asm{\"}", "asm{{", "asm{{}", "asm{{}}", "asm{}}", "asm{}{", "asm{//", "asm{//}",
    "asm{//}\n}", "asm{\\}", "asm{'}'", "asm{(", "asm{asm{", "asm{asm{}", "asm{-x", "asm{-x}", "asm{\0", "asm{\0}",
    "asm{é", "asm{é}", "asm{€", "asm{€}", "asm{\u{10FFFF}", "asm{\u{10FFFF}}", "asm{mov a, b\n\tadd a, 1\n",
    "asm{mov a, b\n\tadd a, 1\n}", "asm{;", "asm{};", "asm{ }", "asm{\n}",
    // after other tokens
    "var x:T;asm{", "var x:T;\nasm {hlt\n", "asm{}asm{", "asm{}\n asm{a}\nasm{b", "fn f(){asm{", "fn f(){asm{}",
    "fn f(){asm{}}", "fn f(){asm{x}}", "fn f(){a;asm{x", "fn f(){loop asm{", "fn f()asm{", "type T=asm{", "use asm{",
    "use \"a\";asm{", "type asm{", "var x:T=a.asm{", "var x:T=f(asm{", "extern asm{", "$asm{", "\"asm{", "//asm{",
    "//\nasm{", "\"a\"asm{", "éasm{", "asmé{", "asm_{", "xasm{", "Asm{", "1asm{", "\n\n\n   asm\n   {\n",
    // both
    "-asm{", "- asm{", "-aasm{", "asm{x}-y", "asm{} -asm{ z", "-x-y asm{ z", "a -bc -de;asm{", "- - -x -\n-y",
    "fn f(){left -dx;}", "fn f(){a = left -dx;asm {nop", "fn f(a:T){return a -b;}",
    // before and after errors, reported and not
    "+ -a + -b asm{", "fn f(){c(w -1, -x);}", "type T=struct{a:T -b:T};", "fn f(a -b){c -d;} e -f", "var x:T=a -bc",
    "fn f(){a -b", "fn f(-", "$ -a ? -b", "\"\\q\" -a \"", "var x:T=(-a;", "var x:T=-a -b;", "use -a", "type -a",
    // before refusals
    "-a€", "-€€", "-a asm €", "-a -", "--", "-a type", "-a use", "var x:T=a -b.", "-a var x:T=a.", "//-a", "// asm{",
];

/// Gives the scripts with some surroundings of each character, then the others.
pub fn scripts(count: usize, each: &mut dyn FnMut(&[u8])) {
    for around in AROUND.into_iter().take(count) {
        each(around.replace('@', "").as_bytes());
        for character in ('\0'..='\u{12C}').chain(ABOVE) {
            each(around.replace('@', &character.to_string()).as_bytes());
        }
    }
    OTHERS.iter().for_each(|script| each(script.as_bytes()));
    // more than can be entered
    each("-a".repeat(256).as_bytes());
    each(format!("{}asm{{", "-a".repeat(255)).as_bytes());
}
