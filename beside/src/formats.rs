//! What the oracle answers, in the formats of docs/FORMAT.md.

/// Eight words: kind, line, column, text start, text length, base, whether something was lost at it, 0.
pub type Token = [u32; 8];

/// Four words: number, line, column, 0.
pub type TokenError = [u32; 4];

/// What Tokenise gives of an accepted script.
#[derive(Clone, Default, Debug, PartialEq, Eq)]
pub struct Tokens {
    pub tokens: Vec<Token>,
    pub errors: Vec<TokenError>,
    pub text: Vec<u8>,
}

/// What Read is passed: the slices, what is stated of them, and the length of the file slice.
#[derive(Clone, Debug, PartialEq, Eq)]
pub struct Passed {
    pub tokens: Vec<u32>,
    pub token_count: u64,
    pub errors: Vec<u32>,
    pub error_count: u64,
    pub text: Vec<u8>,
    pub file: usize,
}

impl Passed {
    /// Records in slices of their own length.
    pub fn new(records: &Tokens) -> Self {
        Passed {
            tokens: records.tokens.concat(),
            token_count: records.tokens.len() as u64,
            errors: records.errors.concat(),
            error_count: records.errors.len() as u64,
            text: records.text.clone(),
            file: FILE_SIZE,
        }
    }
}

/// What an operation is passed: a script or records, and the lengths of its output slices.
#[derive(Clone, Debug, PartialEq, Eq)]
pub enum Given {
    /// the token slice and the error slice in words, the text slice in bytes
    Tokenise { script: Vec<u8>, slices: [usize; 3] },
    Read(Passed),
    Whole { script: Vec<u8>, file: usize },
    Sentence { script: Vec<u8>, list: u32, position: u64, slice: usize },
    /// a tree file, and the words of the slice for its steps
    Load { file: Vec<u8>, records: usize },
}

/// What an operation answers, and its output slices at exit.
#[derive(Clone, Debug, PartialEq, Eq)]
pub struct Exit {
    /// 0, or the refusal
    pub number: u8,
    /// Tokenise: tokens, token errors, text bytes; Load: steps; the others: bytes of the file or sentence
    pub counts: Vec<usize>,
    /// Tokenise: the token slice and the error slice
    pub words: Vec<Vec<u32>>,
    /// the text slice, the file slice or the sentence slice
    pub bytes: Vec<u8>,
    /// Read: what Token text gives for each record of the token slice, and after the last
    pub texts: Vec<Vec<u8>>,
    /// Load: the slice of the steps
    pub runs: Runs,
}

/// A step of a tree file: tag, count of children, offset of the body in the file, length of the body.
pub type Step = [u32; 4];

/// A slice of words: each word and how many times it stands there. No word is the same as the one before it.
#[derive(Clone, Default, Debug, PartialEq, Eq)]
pub struct Runs(Vec<(u32, usize)>);

impl Runs {
    pub fn put(&mut self, word: u32, times: usize) {
        match self.0.last_mut() {
            _ if times == 0 => (),
            Some((last, so_far)) if *last == word => *so_far += times,
            _ => self.0.push((word, times)),
        }
    }

    pub fn words(&self) -> impl Iterator<Item = u32> + '_ {
        self.0.iter().flat_map(|(word, times)| std::iter::repeat(*word).take(*times))
    }

    /// The whole groups of four words at the start of the slice, so many or fewer.
    pub fn steps(&self, count: usize) -> Vec<Step> {
        let words: Vec<u32> = self.words().take(4 * count).collect();
        words.chunks_exact(4).map(|step| step.try_into().unwrap()).collect()
    }

    /// Whether a slice holds just these words.
    pub fn are(&self, mut slice: &[u32]) -> bool {
        for (word, times) in &self.0 {
            let Some((run, rest)) = slice.split_at_checked(*times) else { return false };
            // a block at a time
            if !run.chunks(512).all(|block| block.iter().fold(0, |other, next| other | (next ^ word)) == 0) {
                return false;
            }
            slice = rest;
        }
        slice.is_empty()
    }
}

/// What output slices hold before a call.
pub const FILLER: u8 = 0xA5;
pub const FILLER_WORD: u32 = 0xA5A5_A5A5;

/// An error of the parser, or a loss: number, line, column, expected kind, kind met.
#[derive(Clone, Copy, Debug, PartialEq, Eq)]
pub struct Error {
    pub number: u8,
    pub place: Place,
    pub expected: u8,
    pub got: u8,
}

#[derive(Clone, Copy, Debug, PartialEq, Eq)]
pub struct Place {
    pub line: u32,
    pub column: u32,
}

/// The sentences of a script's three lists, each in the list's order.
#[derive(Clone, Default, Debug, PartialEq, Eq)]
pub struct Sentences {
    pub token_errors: Vec<String>,
    pub reported: Vec<String>,
    pub full: Vec<String>,
}

/// Tokenise's answer and the whole operation's; a number is a refusal. A script that is refused has no sentences.
#[derive(Clone, Debug, PartialEq, Eq)]
pub struct Answer {
    pub tokenised: Result<Tokens, u8>,
    pub whole: Result<Vec<u8>, u8>,
    pub sentences: Sentences,
}

impl Answer {
    /// Refused before there is any token.
    pub fn refused(number: u8) -> Self {
        Answer { tokenised: Err(number), whole: Err(number), sentences: Sentences::default() }
    }
}

/// Stands for a panic of the Rust that no refusal names.
pub const PANIC: u8 = 255;

/// The lists that have sentences, by the tags of their fields.
pub const TOKEN_ERRORS: u32 = 0x62;
pub const REPORTED: u32 = 0x60;
pub const FULL: u32 = 0x61;

pub const SCRIPT_LIMIT: usize = 16_384;
pub const FILE_SIZE: usize = 65_536;

/// The least lengths of Tokenise's output slices.
pub const TOKEN_SLICES: [usize; 3] = [16_384, 1_024, 16_384];

/// The least length of Load's output slice, in words.
pub const STEP_WORDS: usize = 87_380;

/// The largest line and column, and the largest end of a text.
pub const PLACE_LIMIT: u32 = 16_384;
pub const TEXT_LIMIT: usize = 16_384;

/// The kinds of the tokens at which something can be lost.
pub const MINUS: u32 = 23;
pub const ASSEMBLY: u32 = 54;

/// The spelling of the kinds in the Rust, from kind 1 on.
pub const KINDS: [&str; 54] = [
    "Identifier", "Integer", "String", "KwFn", "KwVar", "KwReturn", "KwLoop", "KwWhile", "KwBreak",
    "KwIf", "KwElse", "KwTrue", "KwFalse", "KwAs", "KwType", "KwStruct", "KwSizeof", "KwUse",
    "KwExtern", "KwDistinct", "KwInternal", "Plus", "Minus", "Star", "ForwardSlash", "Equals",
    "DoubleEquals", "Ampersand", "DoubleAmpersand", "Bar", "Caret", "Tilde", "Bang", "Dot",
    "DotStar", "LeftShift", "RightShift", "Hash", "LBrace", "RBrace", "LParen", "RParen",
    "LBracket", "RBracket", "LAngle", "LAngleEquals", "RAngle", "RAngleEquals", "Colon",
    "Semicolon", "RArrow", "LArrow", "Comma", "InlineAssemblyFragment",
];

/// The number of a kind from its Debug spelling, with or without a text after it.
pub fn kind_number(debug: &str) -> u8 {
    let end = debug.find(|c: char| !c.is_ascii_alphabetic()).unwrap_or(debug.len());
    let name = &debug[..end];
    match KINDS.iter().position(|k| *k == name) {
        Some(at) => at as u8 + 1,
        None => panic!("no kind is spelt {debug:?}"),
    }
}

/// A field of a tree file: tag and body.
pub type Field<'a> = (u8, &'a [u8]);

/// The whole fields at the start of some bytes, and what is left after them. No tag is 0.
pub fn fields(file: &[u8]) -> (Vec<Field<'_>>, &[u8]) {
    let mut fields = Vec::new();
    let mut rest = file;
    while let [tag @ 1..=255, high, low, left @ ..] = rest {
        let length = *high as usize * 256 + *low as usize;
        if left.len() < length {
            break;
        }
        let (body, after) = left.split_at(length);
        fields.push((*tag, body));
        rest = after;
    }
    (fields, rest)
}
