//! mark SRC CODE OUT: writes the files of the crates `plain`, `marked` and `wrong`. The first has the five Rust
//! files unchanged, the second has the marks of `marks.rs` in them, the third also the wrong steps. Each
//! substitution states how many places it has.

mod wrong_steps;

use std::{env, fs, path::Path, process};

struct Mark {
    file: &'static str,
    places: usize,
    old: &'static str,
    new: &'static str,
}

const fn mark(file: &'static str, places: usize, old: &'static str, new: &'static str) -> Mark {
    Mark { file, places, old, new }
}

const T: &str = "tokenizer.rs";
const P: &str = "parser.rs";

/// A function whose open calls are counted.
macro_rules! opening {
    ($head:literal) => {
        mark(P, 1, $head, concat!($head, " let _open = crate::marks::open();"))
    };
}

const MARKS: &[Mark] = &[
    // 4
    mark(T, 1, "use crate::{", "use crate::marks::Met as _;\nuse crate::{"),
    mark(T, 2, ".is_whitespace()", ".met().is_whitespace()"),
    mark(T, 1, ".is_alphabetic()", ".met().is_alphabetic()"),
    mark(T, 1, ".is_alphanumeric()", ".met().is_alphanumeric()"),
    // 5
    mark(
        T,
        1,
        "chars.next().unwrap();\n                    tokens.push(Token::new(TokenKind::Minus,",
        "crate::marks::swallowed(chars.next());\n                    tokens.push(Token::new(TokenKind::Minus,",
    ),
    // 6
    mark(T, 35, "tokens.push(", "crate::marks::push_token(&mut tokens, "),
    // 7
    mark(T, 4, "errors.push(", "crate::marks::push_token_error(&mut errors, "),
    // 10
    opening!("pub fn parse_statement(&mut self) -> Fallible<MaybeFatal<Statement>, ParseError> {"),
    opening!("pub fn parse_expression(&mut self) -> Fallible<MaybeFatal<Expression>, ParseError> {"),
    opening!("pub fn parse_unary(&mut self) -> Fallible<MaybeFatal<Expression>, ParseError> {"),
    opening!("pub fn parse_type(&mut self) -> Fallible<MaybeFatal<Type>, ParseError> {"),
    // 11
    mark(
        P,
        1,
        "let field_name_token = self.tokens.next().unwrap();",
        "let field_name_token = crate::marks::there(self.tokens.next());",
    ),
    mark(
        P,
        1,
        "\"expected identifier after `type`\", name_token.unwrap().loc",
        "\"expected identifier after `type`\", crate::marks::there(name_token).loc",
    ),
    mark(
        P,
        1,
        "\"expected string after `use`\", path_token.unwrap().loc",
        "\"expected string after `use`\", crate::marks::there(path_token).loc",
    ),
];

const FILES: [&str; 5] = ["source.rs", "fallible.rs", "node.rs", "tokenizer.rs", "parser.rs"];

/// The files beside the five that the crates have, and their names there.
const BESIDE: [(&str, &str); 9] = [
    ("decode.rs", "decode.rs"),
    ("encode.rs", "encode.rs"),
    ("judge.rs", "judge.rs"),
    ("losses.rs", "losses.rs"),
    ("marks.rs", "marks.rs"),
    ("operations.rs", "operations.rs"),
    ("respelt.rs", "respelt.rs"),
    ("rules.rs", "rules.rs"),
    ("oracle.rs", "lib.rs"),
];

fn main() {
    let words: Vec<String> = env::args().collect();
    let (five, code, out) = (Path::new(&words[1]), Path::new(&words[2]), Path::new(&words[3]));
    for file in FILES {
        crates(file, &read(&five.join(file)), out);
    }
    for (from, file) in BESIDE {
        crates(file, &read(&code.join(from)), out);
    }
}

/// Writes a file of each of the three crates.
fn crates(file: &str, text: &str, out: &Path) {
    let marked = marked(file, text.to_owned());
    write(&out.join("plain").join(file), text);
    write(&out.join("marked").join(file), &marked);
    write(&out.join("wrong").join(file), &wronged(file, marked));
}

fn read(path: &Path) -> String {
    fs::read_to_string(path).unwrap_or_else(|e| panic!("{} can't be read: {e}", path.display()))
}

fn write(path: &Path, text: &str) {
    fs::write(path, text).unwrap_or_else(|e| panic!("{} can't be written: {e}", path.display()))
}

fn marked(file: &str, mut text: String) -> String {
    for mark in MARKS.iter().filter(|mark| mark.file == file) {
        text = put("a mark", file, &text, mark.places, mark.old, mark.new);
    }
    text
}

/// The text with all wrong steps, each with the test whether it is taken.
fn wronged(file: &str, mut text: String) -> String {
    for (number, wrong) in wrong_steps::table().iter().enumerate() {
        let test = format!("crate::marks::wrong({number})");
        for step in wrong.steps.iter().filter(|step| step.file == file) {
            let (old, new) = (step.old.join("\n"), step.new.join("\n"));
            let new = match step.instead {
                true => format!("(if {test} {{ {new} }} else {{ {old} }})"),
                false => new.replace("WRONG", &test),
            };
            text = put(&format!("{}, {}", wrong.part, wrong.name), file, &text, 1, &old, &new);
        }
    }
    text
}

fn put(name: &str, file: &str, text: &str, places: usize, old: &str, new: &str) -> String {
    let found = text.matches(old).count();
    if found != places {
        eprintln!("{file}, {name}: {found} places, not {places}, of: {old}");
        process::exit(1);
    }
    text.replace(old, new)
}
