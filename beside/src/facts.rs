//! Facts for the definition: that it computes the Rust's answers to generated scripts.

use crate::ask;
use crate::classes::{self, Class};
use formats::{Answer, Tokens};
use std::collections::{BTreeMap, HashSet};

/// All names of the definition that a module of facts uses; below it only the names on the left stand.
const OPENING: &str = "\
-- Generated scripts, and the Rust's answers to them.
use Rattle.std.specs.Prelude.{◌≡◌, refl, List, [], ◌∷◌, map, ℕ}
use Rattle.std.proofs.Math.Option.{some}
use Rattle.definition.specs.Table.{Row, Lists, File, answered}

abbrev lists : ℕ → List ℕ → List ℕ → List ℕ → Lists
lists n ts es text = record { number = n; toks = ts; errs = es; text = text }

abbrev file : ℕ → List ℕ → File
file n bytes = record { number = n; bytes = bytes }

abbrev row : List ℕ → Lists → File → Row
row s t f = record { script = s; tokens = some t; file = f }
";

/// The definitions that the checker unfolds in each proof.
const UNFOLDED: &str = "answered";

/// How many rows and how many bytes of scripts one fact has at most; a single row may have more bytes.
const ROWS: usize = 10;
const BYTES: usize = 1000;

/// Writes the module with so many rows, taken in turn from the classes: no script twice, none longer.
pub fn print(count: usize, longest: usize, classes: &[Class]) {
    let chosen = chosen(count, longest, classes);
    println!("{OPENING}");
    for (at, rows) in facts(&chosen).into_iter().enumerate() {
        let rows: Vec<String> = rows.iter().map(|script| row(script, &ask::answer(script))).collect();
        println!("pub table_{at} : List Row\ntable_{at} =\n{}    []\n", rows.concat());
        println!("pub holds_{at} : map answered table_{at} ≡ table_{at}");
        println!("unfolding table_{at} {UNFOLDED}\nholds_{at} = refl\n");
    }
    eprintln!("{} rows; by number: {}", chosen.len(), by_number(&chosen));
}

/// The scripts of each fact.
fn facts(scripts: &[Vec<u8>]) -> Vec<Vec<&[u8]>> {
    let mut facts: Vec<Vec<&[u8]>> = Vec::new();
    let mut bytes = 0;
    for script in scripts {
        bytes += script.len();
        match facts.last_mut() {
            Some(fact) if fact.len() < ROWS && bytes <= BYTES => fact.push(script),
            _ => {
                facts.push(vec![script]);
                bytes = script.len();
            }
        }
    }
    facts
}

fn chosen(count: usize, longest: usize, classes: &[Class]) -> Vec<Vec<u8>> {
    let mut queues: Vec<Vec<Vec<u8>>> = classes.iter().map(|class| short_scripts(class, longest)).collect();
    let mut chosen: Vec<Vec<u8>> = Vec::new();
    let mut seen = HashSet::new();
    while chosen.len() < count && queues.iter().any(|queue| !queue.is_empty()) {
        for queue in &mut queues {
            let next = queue.pop().filter(|script| seen.insert(script.clone()));
            chosen.extend(next.filter(|_| chosen.len() < count));
        }
    }
    chosen
}

/// The scripts of a class that are short enough, the last first.
fn short_scripts(class: &Class, longest: usize) -> Vec<Vec<u8>> {
    let mut scripts = Vec::new();
    classes::scripts(class, &mut |script| {
        if script.len() <= longest {
            scripts.push(script.to_vec());
        }
    });
    scripts.reverse();
    scripts
}

fn by_number(scripts: &[Vec<u8>]) -> String {
    let mut counts: BTreeMap<u8, usize> = BTreeMap::new();
    for script in scripts {
        *counts.entry(ask::answer(script).whole.err().unwrap_or(0)).or_default() += 1;
    }
    counts.iter().map(|(number, count)| format!("{number}: {count}")).collect::<Vec<_>>().join(", ")
}

fn row(script: &[u8], answer: &Answer) -> String {
    let file = match &answer.whole {
        Ok(file) => format!("file 0 {}", numbers(file)),
        Err(number) => format!("file {number} []"),
    };
    let comment = script.escape_ascii().to_string();
    format!("    -- {comment}\n    row {} ({}) ({file}) ∷\n", numbers(script), lists(&answer.tokenised))
}

fn lists(answer: &Result<Tokens, u8>) -> String {
    match answer {
        Err(number) => format!("lists {number} [] [] []"),
        Ok(records) => format!("lists 0 {} {} {}", words(&records.tokens), words(&records.errors), numbers(&records.text)),
    }
}

fn words<const N: usize>(records: &[[u32; N]]) -> String {
    list(records.iter().flatten().map(|word| word.to_string()).collect())
}

fn numbers(bytes: &[u8]) -> String {
    list(bytes.iter().map(|byte| byte.to_string()).collect())
}

fn list(items: Vec<String>) -> String {
    let items: String = items.iter().map(|item| format!("{item} ∷ ")).collect();
    format!("({items}[])")
}
