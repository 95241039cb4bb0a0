//! A message of the Rust's parser as a sentence.
//!
//! They differ in quoted text alone, and only in two things. The Rust writes the zero character as `\0` and a sentence
//! as `\u{0}`; the Rust leaves characters above 127 that are printable as they are, and a sentence has `\u{..}` for
//! all of them. The message is enough to find both: its words and the names of kinds are ASCII and have no backslash,
//! so a character above 127 or a backslash stands in quoted text. There each backslash begins an escape, since the Rust
//! writes one of the text as two, and the character after it says which escape it is. All other escapes are the same.

pub fn sentence(message: &str) -> String {
    let mut sentence = String::new();
    let mut characters = message.chars();
    while let Some(c) = characters.next() {
        match c {
            '\\' => sentence.push_str(&escape(characters.next().expect("an escape has a character"))),
            '\u{80}'.. => sentence.push_str(&format!("\\u{{{:x}}}", c as u32)),
            c => sentence.push(c),
        }
    }
    sentence
}

/// The escape that begins with a backslash and some character; of `\u{..}` the rest follows as it is.
fn escape(c: char) -> String {
    match c {
        '0' => "\\u{0}".to_owned(),
        c => format!("\\{c}"),
    }
}
