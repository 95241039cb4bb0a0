//! The oracle's tokens from records, the other way round than `encode.rs`.

use crate::source::{SourceInputType, SourceLocation};
use crate::tokenizer::{Token, TokenKind};
use formats::{kind_number, Tokens};

/// The tokens that good records stand for.
pub fn tokens(records: &Tokens) -> Vec<Token> {
    records.tokens.iter().map(|record| token(record, &records.text)).collect()
}

fn token(record: &formats::Token, text: &[u8]) -> Token {
    let [number, line, column, start, length, base, ..] = *record;
    let own = &text[start as usize..][..length as usize];
    let kind = kind(number, String::from_utf8(own.to_vec()).expect("a good text is UTF-8"), base);
    assert_eq!(kind_number(&format!("{kind:?}")) as u32, number, "the kinds are not in order");
    Token::new(kind, SourceLocation::new(SourceInputType::buffer(), line as usize, column as usize))
}

fn kind(number: u32, text: String, base: u32) -> TokenKind {
    use TokenKind::*;
    let textless = [
        KwFn, KwVar, KwReturn, KwLoop, KwWhile, KwBreak, KwIf, KwElse, KwTrue, KwFalse, KwAs, KwType, KwStruct,
        KwSizeof, KwUse, KwExtern, KwDistinct, KwInternal, Plus, Minus, Star, ForwardSlash, Equals, DoubleEquals,
        Ampersand, DoubleAmpersand, Bar, Caret, Tilde, Bang, Dot, DotStar, LeftShift, RightShift, Hash, LBrace,
        RBrace, LParen, RParen, LBracket, RBracket, LAngle, LAngleEquals, RAngle, RAngleEquals, Colon, Semicolon,
        RArrow, LArrow, Comma,
    ];
    match number {
        1 => Identifier(text),
        2 => Integer(text, base),
        3 => TokenKind::String(text),
        54 => InlineAssemblyFragment(text),
        _ => textless[number as usize - 4].clone(),
    }
}
