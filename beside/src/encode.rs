//! The oracle's tokens, tree and errors in the formats of docs/FORMAT.md.

use crate::losses;
use crate::node::*;
use crate::source::SourceLocation;
use crate::tokenizer::{Token, TokenKind, TokenizeError};
use formats::{kind_number, Error, Place, Tokens, FILE_SIZE};

/// The line and column of a place; the Rust shows them in its description alone.
fn place(loc: &SourceLocation) -> Place {
    let text = loc.describe();
    let mut parts = text.rsplit(':').map(|part| part.parse().expect("a place ends in two numbers"));
    let column = parts.next().unwrap();
    let line = parts.next().unwrap();
    Place { line, column }
}

pub fn tokens(script: &str, tokens: &[Token], errors: &[TokenizeError]) -> Tokens {
    let mut records = Tokens::default();
    for token in tokens {
        let mut record = token_record(token, &mut records.text);
        record[6] = losses::seventh(script, &record);
        records.tokens.push(record);
    }
    records.errors = errors.iter().map(token_error).collect();
    records
}

/// The record of a token; what was lost at it is not in it yet.
fn token_record(token: &Token, text: &mut Vec<u8>) -> formats::Token {
    let at = place(&token.loc);
    let kind = kind_number(&format!("{:?}", token.kind)) as u32;
    let start = text.len() as u32;
    let (own, base) = match &token.kind {
        TokenKind::Identifier(s) | TokenKind::String(s) | TokenKind::InlineAssemblyFragment(s) => (s, 0),
        TokenKind::Integer(s, base) => (s, *base),
        _ => return [kind, at.line, at.column, 0, 0, 0, 0, 0],
    };
    text.extend(own.as_bytes());
    [kind, at.line, at.column, start, own.len() as u32, base, 0, 0]
}

fn token_error(error: &TokenizeError) -> formats::TokenError {
    let number = match error.description.as_str() {
        "unknown escape sequence" => 1,
        "expected closing double-quotes for string" => 2,
        "expected { after `asm`" => 3,
        other if other.starts_with("unexpected character: ") => 4,
        other => panic!("no token error is worded {other:?}"),
    };
    let at = place(&error.loc);
    [number, at.line, at.column, 0]
}

/// A parser error: its number from the wording, the kinds where the message prints them.
pub fn error(description: &str, loc: &SourceLocation) -> Error {
    let (number, expected, got) = worded(description);
    Error { number, place: place(loc), expected, got }
}

/// Number, expected kind and kind met.
pub fn worded(text: &str) -> (u8, u8, u8) {
    let fixed = match text {
        "expected identifier" => 4,
        "unexpected end-of-file" => 5,
        "expected statement, got end of file" => 6,
        "expected expression, got end of file" => 8,
        "expected array size" => 9,
        "array size must be a positive integer" => 10,
        "expected type, got end of file" => 12,
        "expected } before end of file" => 13,
        "unexpected end-of-file while parsing list" => 14,
        "expected identifier after `type`" => 16,
        "expected string after `use`" => 17,
        "expected start of compound, got end of file" => 18,
        _ => 0,
    };
    if fixed != 0 {
        return (fixed, 0, 0);
    }
    let openings = [
        (1, "unexpected token at top-level: "),
        (7, "expected expression, got "),
        (11, "expected type, got "),
        (19, "unexpected token for compound literal "),
    ];
    for (number, opening) in openings {
        if let Some(got) = text.strip_prefix(opening) {
            return (number, 0, kind_number(got));
        }
    }
    if let Some(got) = text.strip_prefix("unexpected token ").and_then(|s| s.strip_suffix(" in list")) {
        return (15, 0, kind_number(got));
    }
    let rest = text.strip_prefix("expected ").unwrap_or_else(|| panic!("no error is worded {text:?}"));
    let (expected, got) = rest.split_once(", got ").unwrap_or_else(|| panic!("no error is worded {text:?}"));
    match got {
        "end of file" => (3, kind_number(expected), 0),
        got => (2, kind_number(expected), kind_number(got)),
    }
}

/// The tree file.
pub fn file(module: &Module, token_errors: &[formats::TokenError], reported: &[Error], full: &[Error]) -> Vec<u8> {
    let mut out = Writer { bytes: Vec::new() };
    for item in &module.items {
        out.item(item);
    }
    out.field(0x5F, &two(module.items.len()));
    for e in token_errors {
        let at = Place { line: e[1], column: e[2] };
        out.error(0x62, &Error { number: e[0] as u8, place: at, expected: 0, got: 0 });
    }
    for e in reported {
        out.error(0x60, e);
    }
    for e in full {
        out.error(0x61, e);
    }
    assert!(out.bytes.len() <= FILE_SIZE, "the file is longer than 65,536 bytes");
    out.bytes
}

fn two(number: usize) -> [u8; 2] {
    u16::try_from(number).expect("a count or length needs two bytes").to_be_bytes()
}

fn place_bytes(at: Place) -> [u8; 4] {
    let [a, b] = two(at.line as usize);
    let [c, d] = two(at.column as usize);
    [a, b, c, d]
}

struct Writer {
    bytes: Vec<u8>,
}

impl Writer {
    fn field(&mut self, tag: u8, body: &[u8]) {
        self.bytes.push(tag);
        self.bytes.extend(two(body.len()));
        self.bytes.extend(body);
    }

    /// A record with a place, then numbers, then text.
    fn record(&mut self, tag: u8, loc: &SourceLocation, numbers: &[u8], text: &str) {
        let at = place(loc);
        assert!(at.line > 0 && at.column > 0, "a record has the place 0:0");
        let body = [&place_bytes(at)[..], numbers, text.as_bytes()].concat();
        self.field(tag, &body);
    }

    fn error(&mut self, tag: u8, e: &Error) {
        let body = [&[e.number][..], &place_bytes(e.place), &[e.expected, e.got]].concat();
        self.field(tag, &body);
    }

    fn item(&mut self, item: &TopLevelItem) {
        let loc = &item.loc;
        match &item.kind {
            TopLevelItemKind::FunctionDefinition { name, parameters, return_type, body } => {
                for parameter in parameters {
                    self.named_type(&parameter.name, &parameter.ty);
                }
                self.ty(return_type);
                let is_extern = match body {
                    FunctionBody::Statement(statement) => {
                        self.statement(statement);
                        0
                    }
                    FunctionBody::Extern => 1,
                };
                let [a, b] = two(parameters.len());
                self.record(0x50, loc, &[is_extern, a, b], name);
            }
            TopLevelItemKind::TypeAlias { name, ty, distinct, internal } => {
                self.ty(ty);
                self.record(0x51, loc, &[*distinct as u8 + 2 * *internal as u8], name);
            }
            TopLevelItemKind::Use { path } => self.record(0x52, loc, &[], path),
            TopLevelItemKind::VariableDeclaration { name, ty, value } => {
                self.ty(ty);
                self.initial_value(value);
                self.record(0x53, loc, &[], name);
            }
            TopLevelItemKind::InlineAssembly(text) => self.record(0x54, loc, &[], text),
        }
    }

    fn ty(&mut self, ty: &Type) {
        match &ty.kind {
            TypeKind::Name(name) => self.record(0x10, &ty.loc, &[], name),
            TypeKind::Void => self.record(0x11, &ty.loc, &[], ""),
            TypeKind::Pointer(inner) => {
                self.ty(inner);
                self.record(0x12, &ty.loc, &[], "");
            }
            TypeKind::Array(inner, size) => {
                self.ty(inner);
                self.record(0x13, &ty.loc, &(*size as u64).to_be_bytes(), "");
            }
            TypeKind::Struct(fields) => {
                for (name, field) in fields {
                    self.named_type(name, field);
                }
                self.record(0x14, &ty.loc, &two(fields.len()), "");
            }
        }
    }

    fn named_type(&mut self, name: &str, ty: &Type) {
        self.ty(ty);
        self.field(0x15, name.as_bytes());
    }

    fn initial_value(&mut self, value: &DeclarationInitialValue) {
        match value {
            DeclarationInitialValue::None => self.field(0x33, &[]),
            DeclarationInitialValue::Assignment(e) => {
                self.expression(e);
                self.field(0x34, &[]);
            }
            DeclarationInitialValue::CompoundAssignment(c) => {
                self.compound(c);
                self.field(0x35, &[]);
            }
        }
    }

    fn compound(&mut self, compound: &Compound) {
        match &compound.kind {
            CompoundKind::Array(items) => {
                for item in items {
                    self.expression(item);
                }
                self.record(0x30, &compound.loc, &two(items.len()), "");
            }
            CompoundKind::Struct(fields) => {
                for field in fields {
                    self.expression(&field.value);
                    self.record(0x32, &field.loc, &[], &field.name);
                }
                self.record(0x31, &compound.loc, &two(fields.len()), "");
            }
        }
    }

    fn statement(&mut self, statement: &Statement) {
        let loc = &statement.loc;
        match &statement.kind {
            StatementKind::Block { body, .. } => {
                for inner in body {
                    self.statement(inner);
                }
                self.record(0x40, loc, &two(body.len()), "");
            }
            StatementKind::Expression(e) => {
                self.expression(e);
                self.record(0x41, loc, &[], "");
            }
            StatementKind::VariableDeclaration { name, ty, value } => {
                self.ty(ty);
                self.initial_value(value);
                self.record(0x42, loc, &[], name);
            }
            StatementKind::Assignment { target, value } => {
                self.expression(target);
                self.expression(value);
                self.record(0x43, loc, &[], "");
            }
            StatementKind::CompoundAssignment { target, value } => {
                self.expression(target);
                self.compound(value);
                self.record(0x44, loc, &[], "");
            }
            StatementKind::Return(None) => self.record(0x45, loc, &[0], ""),
            StatementKind::Return(Some(e)) => {
                self.expression(e);
                self.record(0x45, loc, &[1], "");
            }
            StatementKind::Loop(body) => {
                self.statement(body);
                self.record(0x46, loc, &[], "");
            }
            StatementKind::While { condition, body } => {
                self.expression(condition);
                self.statement(body);
                self.record(0x47, loc, &[], "");
            }
            StatementKind::Break => self.record(0x48, loc, &[], ""),
            StatementKind::If { condition, true_body, false_body } => {
                self.expression(condition);
                self.statement(true_body);
                if let Some(body) = false_body {
                    self.statement(body);
                }
                self.record(0x49, loc, &[2 + false_body.is_some() as u8], "");
            }
            StatementKind::InlineAssembly(text) => self.record(0x4A, loc, &[], text),
        }
    }

    /// The operands, then the record of their operator.
    fn operator(&mut self, tag: u8, loc: &SourceLocation, numbers: &[u8], operands: &[&Expression]) {
        for operand in operands {
            self.expression(operand);
        }
        self.record(tag, loc, numbers, "");
    }

    fn expression(&mut self, expression: &Expression) {
        let loc = &expression.loc;
        match &expression.kind {
            ExpressionKind::Identifier(name) => self.record(0x20, loc, &[], name),
            ExpressionKind::Integer(digits, base) => self.record(0x21, loc, &[*base as u8], digits),
            ExpressionKind::Boolean(value) => self.record(0x22, loc, &[*value as u8], ""),
            ExpressionKind::String(text) => self.record(0x23, loc, &[], text),
            ExpressionKind::Call { target, arguments } => {
                self.expression(target);
                for argument in arguments {
                    self.expression(argument);
                }
                self.record(0x24, loc, &two(arguments.len()), "");
            }
            ExpressionKind::Index { target, index } => self.operator(0x25, loc, &[], &[target, index]),
            ExpressionKind::Cast(e, ty) => {
                self.expression(e);
                self.ty(ty);
                self.record(0x26, loc, &[], "");
            }
            ExpressionKind::PointerTake(e) => self.operator(0x27, loc, &[], &[e]),
            ExpressionKind::PointerDereference(e) => self.operator(0x28, loc, &[], &[e]),
            ExpressionKind::FieldAccess { target, field } => {
                self.expression(target);
                self.record(0x29, loc, &[], field);
            }
            ExpressionKind::BitwiseNot(e) => self.operator(0x2A, loc, &[], &[e]),
            ExpressionKind::BooleanNot(e) => self.operator(0x2B, loc, &[], &[e]),
            ExpressionKind::BooleanAnd(l, r) => self.operator(0x2C, loc, &[], &[l, r]),
            ExpressionKind::ArithmeticBinOp(op, l, r) => self.operator(0x2D, loc, &[*op as u8], &[l, r]),
            ExpressionKind::ComparisonBinOp(op, l, r) => self.operator(0x2E, loc, &[*op as u8], &[l, r]),
            ExpressionKind::Sizeof(ty) => {
                self.ty(ty);
                self.record(0x2F, loc, &[], "");
            }
        }
    }
}
