//! The named classes of scripts: NAME, NAME:COUNT or NAME:COUNT:SEED.

use crate::random::Random;
use crate::{corpus, damage, fixed, grammar, latin, loss_scripts, stored_files, texts};

const NAMES: &str = "valid damaged soup bytes utf8 boundary limit-length limit-places limit-tokens limit-errors \
                     limit-entries limit-losses limit-nesting limit-sizes limit-counts paper constructs tests \
                     sequences short pieces latin texts losses";

/// What `coverage` runs, and any command that is given no class.
pub const DEFAULT: [&str; 12] = [
    "paper", "constructs", "boundary", "utf8", "latin", "losses", "sequences:2", "pieces:3", "valid:5000",
    "damaged:20000", "soup:20000", "bytes:5000",
];

pub struct Class {
    pub word: String,
    pub name: String,
    pub count: usize,
    pub seed: u64,
}

/// Reads the words, or gives the reason why they can't be read.
pub fn parse(words: &[String]) -> Result<Vec<Class>, String> {
    named(words, &DEFAULT, NAMES)
}

/// The same of classes of tree files; each class of scripts is one of them.
pub fn parse_files(words: &[String]) -> Result<Vec<Class>, String> {
    named(words, &stored_files::DEFAULT, &format!("{} {NAMES}", stored_files::NAMES))
}

fn named(words: &[String], default: &[&str], names: &str) -> Result<Vec<Class>, String> {
    if words.is_empty() {
        return default.iter().map(|word| class(word, names)).collect();
    }
    words.iter().map(|word| class(word, names)).collect()
}

fn class(word: &str, names: &str) -> Result<Class, String> {
    let mut parts = word.split(':');
    let name = parts.next().unwrap().to_owned();
    if !names.split(' ').any(|known| known == name) {
        return Err(format!("no class is named {name}; there are: {names}"));
    }
    let standard = match name.as_str() {
        "sequences" | "short" => 2,
        "pieces" => 3,
        "utf8" => 128,
        _ => 1000,
    };
    let count = number(parts.next(), standard)? as usize;
    let seed = number(parts.next(), 1)?;
    Ok(Class { word: word.to_owned(), name, count, seed })
}

fn number(part: Option<&str>, otherwise: u64) -> Result<u64, String> {
    part.map_or(Ok(otherwise), |part| part.parse().map_err(|_| format!("{part} is no number")))
}

/// Gives each script of a class.
pub fn scripts(class: &Class, each: &mut dyn FnMut(&[u8])) {
    if let Some((_, part)) = fixed::LIMITS.iter().find(|(name, _)| *name == class.name) {
        return part(each);
    }
    let generate: fn(&mut Random) -> Vec<u8> = match class.name.as_str() {
        "paper" => return fixed::PAPER.iter().for_each(|script| each(script.as_bytes())),
        "constructs" => return fixed::CONSTRUCTS.iter().for_each(|script| each(script.as_bytes())),
        "tests" => {
            let cases = corpus::cases().unwrap_or_else(|reason| panic!("{reason}"));
            return cases.iter().for_each(|case| each(&case.script));
        }
        "boundary" => return fixed::boundary(each),
        "utf8" => return damage::utf8(class.count, each),
        "sequences" => return damage::sequences(class.count, each),
        "short" => return damage::short(class.count, each),
        "pieces" => return damage::pieces(class.count, each),
        "latin" => return latin::scripts(class.count, each),
        "losses" => return loss_scripts::scripts(class.count, each),
        "valid" => valid,
        "damaged" => damage::damaged,
        "soup" => damage::soup,
        "texts" => texts::script,
        _ => damage::bytes,
    };
    let mut random = Random::new(class.seed);
    for _ in 0..class.count {
        each(&generate(&mut random));
    }
}

fn valid(random: &mut Random) -> Vec<u8> {
    let lexemes = grammar::module(random);
    grammar::joined(random, &lexemes).into_bytes()
}
