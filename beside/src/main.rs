//! Runs beside the Rust: see README.md.

mod altered;
mod ask;
mod characters;
mod claims;
mod classes;
mod compare;
mod corpus;
mod coverage;
mod damage;
mod facts;
mod file_damage;
mod fixed;
mod grammar;
mod latin;
#[cfg(library)]
mod linked;
#[cfg(library)]
mod linked_sentences;
#[cfg(library)]
mod linked_stored;
mod lists;
mod loss_scripts;
mod made;
mod noticed;
mod random;
mod sentence_cases;
mod sentence_coverage;
mod show;
mod slices;
mod stored_cases;
mod stored_coverage;
mod stored_files;
mod texts;
mod tree_files;
mod written_again;
// the steps are for `mark`
#[allow(dead_code)]
mod wrong_steps;

use std::io::{self, Read, Write};

const USAGE: &str = "usage: beside coverage CLASS..
       beside coverage lists
       beside claims CLASS..
       beside characters
       beside program PROGRAM CLASS..
       beside lib CLASS..
       beside sentences CLASS..
       beside stored CLASS..
       beside judge CLASS..
       beside list tokens|files|records|sentences|stored CLASS..
       beside case tokens|files|records|sentences|stored NUMBER < LIST
       beside wrong PART..
       beside definitions COUNT LONGEST CLASS..
       beside dictionary
       beside show < SCRIPT";

fn main() {
    ask::hide_expected_panics();
    // trees of many levels are dropped by recursion
    let work = std::thread::Builder::new().stack_size(256 << 20).spawn(run).unwrap();
    let passed = match work.join() {
        Ok(Ok(passed)) => passed,
        Ok(Err(reason)) => {
            eprintln!("{reason}");
            std::process::exit(2);
        }
        Err(_) => std::process::exit(3),
    };
    std::process::exit(if passed { 0 } else { 1 });
}

/// Whether all went well, or why the words can't be understood.
fn run() -> Result<bool, String> {
    let words: Vec<String> = std::env::args().skip(1).collect();
    let names: Vec<&str> = words.iter().map(String::as_str).collect();
    match names.as_slice() {
        ["coverage", "lists"] => coverage::lists(),
        ["coverage", ..] => Ok(coverage::run(&classes::parse(&words[1..])?)),
        ["claims", ..] => Ok(claims::run(&classes::parse(&words[1..])?)),
        ["characters"] => Ok(characters::run()),
        ["program", program, ..] => Ok(compare::program(program, &classes::parse(&words[2..])?)),
        ["lib", ..] => Ok(compare::library(&classes::parse(&words[1..])?)),
        ["sentences", ..] => Ok(compare::sentences(&classes::parse(&words[1..])?)),
        ["stored", ..] => Ok(compare::stored(&classes::parse_files(&words[1..])?)),
        ["judge", ..] => Ok(compare::judge(&classes::parse_files(&words[1..])?)),
        ["list", sort, ..] => {
            let mut out = io::BufWriter::new(io::stdout().lock());
            let parse = if *sort == "stored" { classes::parse_files } else { classes::parse };
            lists::write(sort, &parse(&words[2..])?, &mut out)?;
            out.flush().expect("the list can't be written");
            Ok(true)
        }
        ["wrong", parts @ ..] => noticed::run(parts),
        ["dictionary"] => {
            print!("{}", damage::dictionary());
            Ok(true)
        }
        ["case", sort @ ("tokens" | "files" | "records" | "sentences" | "stored"), at] => {
            lists::print_case(sort, number(at)?, &input())?;
            Ok(true)
        }
        ["definitions", count, longest, ..] => {
            facts::print(number(count)?, number(longest)?, &classes::parse(&words[3..])?);
            Ok(true)
        }
        ["show"] => Ok(show_answer()),
        _ => Err(USAGE.to_owned()),
    }
}

fn number(word: &str) -> Result<usize, String> {
    word.parse().map_err(|_| format!("{word} is no number"))
}

fn input() -> Vec<u8> {
    let mut bytes = Vec::new();
    io::stdin().read_to_end(&mut bytes).expect("standard input can't be read");
    bytes
}

/// Prints both answers to the script on standard input, and the sentences of its errors.
fn show_answer() -> bool {
    let answer = ask::answer(&input());
    for line in show::tokenised(&answer.tokenised).iter().chain(&show::whole(&answer.whole)) {
        println!("{line}");
    }
    let sentences = answer.sentences;
    for (list, entries) in [(62, sentences.token_errors), (60, sentences.reported), (61, sentences.full)] {
        for (position, sentence) in entries.iter().enumerate() {
            println!("{list} {position} {}", show::script(sentence.as_bytes()));
        }
    }
    true
}
