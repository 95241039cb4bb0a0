//! The full list, and the refusals that the marked copy meets in its steps.

use crate::source::SourceLocation;
use crate::tokenizer::{Token, TokenizeError};
use formats::Error;
use std::cell::{Cell, RefCell};

pub struct Refusal(pub u8);

thread_local! {
    static FULL: RefCell<Vec<Error>> = const { RefCell::new(Vec::new()) };
    static MESSAGES: RefCell<Vec<String>> = const { RefCell::new(Vec::new()) };
    static OPEN: Cell<u32> = const { Cell::new(0) };
    static QUIET: Cell<bool> = const { Cell::new(false) };
    static WRONG: Cell<Option<usize>> = const { Cell::new(None) };
    static TESTS: Cell<usize> = const { Cell::new(0) };
}

/// Before a reading of the crate `wrong`: the number of the wrong step that it takes.
pub fn take_wrong_step(number: Option<usize>) {
    WRONG.with(|wrong| wrong.set(number));
    TESTS.with(|tests| tests.set(0));
}

/// Whether a wrong step is taken.
pub fn wrong(number: usize) -> bool {
    let tests = TESTS.with(|tests| tests.replace(tests.get() + 1));
    assert!(tests < MOST_TESTS, "the reading does not end");
    WRONG.with(|wrong| wrong.get() == Some(number))
}

/// More than a reading that ends has.
const MOST_TESTS: usize = 100_000_000;

/// Before a reading: there are no entries, and no call is open.
pub fn begin() {
    FULL.with(|full| full.borrow_mut().clear());
    MESSAGES.with(|messages| messages.borrow_mut().clear());
    OPEN.with(|open| open.set(0));
}

/// The losses, then the parser's errors in the order made.
pub fn full_list() -> Vec<Error> {
    FULL.with(|full| full.borrow().clone())
}

/// The messages of the parser's errors, in the same order.
pub fn messages() -> Vec<String> {
    MESSAGES.with(|messages| messages.borrow().clone())
}

/// Whether a panic is expected now and not to be printed.
pub fn quiet(on: bool) {
    QUIET.with(|quiet| quiet.set(on));
}

pub fn is_quiet() -> bool {
    QUIET.with(|quiet| quiet.get())
}

fn refuse(number: u8) -> ! {
    std::panic::resume_unwind(Box::new(Refusal(number)))
}

/// An error was made.
pub fn made(what: &str, description: &str, loc: &SourceLocation) {
    if what != "parse" {
        return;
    }
    enter(crate::encode::error(description, loc));
    MESSAGES.with(|messages| messages.borrow_mut().push(description.to_owned()));
}

/// Puts an entry at the end of the full list.
pub fn enter(error: Error) {
    FULL.with(|full| {
        if cfg!(marked) && full.borrow().len() == 255 {
            refuse(12);
        }
        full.borrow_mut().push(error);
    });
}

/// A character that reaches one of the three class tests.
pub trait Met {
    fn met(&self) -> char;
}

impl Met for char {
    fn met(&self) -> char {
        if *self as u32 > 255 {
            refuse(4);
        }
        *self
    }
}

/// The character that a Minus swallows.
pub fn swallowed<T>(next: Option<T>) -> T {
    next.unwrap_or_else(|| refuse(5))
}

pub fn push_token(tokens: &mut Vec<Token>, token: Token) {
    if tokens.len() == 2048 {
        refuse(6);
    }
    tokens.push(token);
}

pub fn push_token_error(errors: &mut Vec<TokenizeError>, error: TokenizeError) {
    if errors.len() == 255 {
        refuse(7);
    }
    errors.push(error);
}

/// A call that counts towards the nesting, until it is dropped.
pub struct Open;

pub fn open() -> Open {
    OPEN.with(|open| {
        if open.get() == 96 {
            refuse(10);
        }
        open.set(open.get() + 1);
    });
    Open
}

impl Drop for Open {
    fn drop(&mut self) {
        OPEN.with(|open| open.set(open.get() - 1));
    }
}

/// The token after `type`, `use` or a suffix dot.
pub fn there(token: Option<Token>) -> Token {
    token.unwrap_or_else(|| refuse(11))
}
