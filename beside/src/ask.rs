//! The oracle's answer to any bytes, confirmed by the unchanged build.

use crate::show;
use formats::{Answer, Exit, Given, Passed, PANIC};
use marked::{operations, rules};

pub fn answer(script: &[u8]) -> Answer {
    let text = match operations::admitted(script) {
        Ok(text) => text,
        Err(number) => return Answer::refused(number),
    };
    let answer = marked::answer(text);
    if !confirmed(text, &answer) {
        eprintln!("the marked copy and the unchanged build differ on {}", show::script(script));
        std::process::exit(3);
    }
    answer
}

/// Whether the unchanged build gives the same, or panics where a refusal stands for a panic.
fn confirmed(text: &str, answer: &Answer) -> bool {
    match answer.whole {
        Ok(_) | Err(9) => plain::answer(text) == *answer,
        Err(5) => plain::tokenised(text) == Err(PANIC),
        Err(11) => {
            let unchanged = plain::answer(text);
            unchanged.tokenised == answer.tokenised && unchanged.whole == Err(PANIC)
        }
        Err(10) | Err(12) => plain::tokenised(text) == answer.tokenised,
        Err(number) => [4, 6, 7].contains(&number),
    }
}

/// Read's answer to any records: the file, or the refusal.
pub fn read(passed: &Passed) -> Result<Vec<u8>, u8> {
    let records = rules::tested(passed)?;
    let answer = marked::read_records(&records);
    let confirmed = match answer {
        Ok(_) => plain::read_records(&records) == answer,
        Err(11) => plain::read_records(&records) == Err(PANIC),
        Err(number) => [10, 12].contains(&number),
    };
    if !confirmed {
        eprintln!("the marked copy and the unchanged build differ on these records:");
        show::passed(passed).iter().for_each(|line| eprintln!("{line}"));
        std::process::exit(3);
    }
    answer
}

/// What an operation answers and leaves in its slices.
pub fn exit(given: &Given) -> Exit {
    match given {
        Given::Read(passed) => drop(read(passed)),
        Given::Tokenise { script, .. } | Given::Whole { script, .. } | Given::Sentence { script, .. } => {
            drop(answer(script))
        }
        // no file is the Rust's
        Given::Load { .. } => (),
    }
    operations::run(given)
}

/// Keeps the panics that the oracle's steps may meet from being printed.
pub fn hide_expected_panics() {
    let print = std::panic::take_hook();
    std::panic::set_hook(Box::new(move |panic| {
        if !marked::marks::is_quiet() && !plain::marks::is_quiet() {
            print(panic);
        }
    }));
}
