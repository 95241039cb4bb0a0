//! Load by its words: each body is read part by part, and the records of a file become one tree.

use formats::{Step, FILE_SIZE, PLACE_LIMIT};

/// The steps of a file, or refusal 14 or 15.
pub fn steps(file: &[u8]) -> Result<Vec<Step>, u8> {
    judged(file).map_err(|(number, _)| number)
}

/// The same, with the refusal also where the field begins that decides; the file's length, where it is the end.
pub fn judged(file: &[u8]) -> Result<Vec<Step>, (u8, usize)> {
    if file.len() > FILE_SIZE {
        return Err((14, 0));
    }
    let mut found = Found::default();
    let mut rest = file;
    while !rest.is_empty() {
        let at = file.len() - rest.len();
        rest = found.take_field(file, rest).map_err(|number| (number, at))?;
    }
    found.steps().ok_or((15, file.len()))
}

/// The tags from here on are skipped.
const SKIPPED: u8 = 0x70;

const MODULE: u8 = 0x5F;
const REPORTED: u8 = 0x60;
const FULL: u8 = 0x61;
const TOKEN_ERROR: u8 = 0x62;

/// The lists of errors in the order of the file.
const LISTS: [u8; 3] = [TOKEN_ERROR, REPORTED, FULL];

/// Tag, body and what is after it; none where the field is cut short.
fn first_field(bytes: &[u8]) -> Option<(u8, &[u8], &[u8])> {
    let [tag, high, low, rest @ ..] = bytes else { return None };
    let (body, after) = rest.split_at_checked(*high as usize * 256 + *low as usize)?;
    Some((*tag, body, after))
}

// ---- bodies

/// What is left of a body. A part that is not as it must be is none.
struct Body<'a> {
    rest: &'a [u8],
}

impl<'a> Body<'a> {
    fn take(&mut self, count: usize) -> Option<&'a [u8]> {
        let (part, rest) = self.rest.split_at_checked(count)?;
        self.rest = rest;
        Some(part)
    }

    fn two(&mut self) -> Option<u32> {
        let part = self.take(2)?;
        Some(part[0] as u32 * 256 + part[1] as u32)
    }

    /// A number of one byte that is at most so much.
    fn at_most(&mut self, most: u8) -> Option<u8> {
        self.one_of(0..=most)
    }

    fn one_of(&mut self, mut allowed: impl Iterator<Item = u8>) -> Option<u8> {
        let byte = self.take(1)?[0];
        allowed.any(|other| other == byte).then_some(byte)
    }

    fn place(&mut self) -> Option<()> {
        let (line, column) = (self.two()?, self.two()?);
        let there = |half| (1..=PLACE_LIMIT).contains(&half);
        (there(line) && there(column)).then_some(())
    }

    /// A place, or 0:0.
    fn place_or_end(&mut self) -> Option<()> {
        if self.rest.starts_with(&[0; 4]) {
            return self.take(4).map(|_| ());
        }
        self.place()
    }

    fn count(&mut self) -> Option<usize> {
        let count = self.two()? as usize;
        (count <= 2_048).then_some(count)
    }

    /// All that is left.
    fn text(&mut self) -> Option<()> {
        let text = self.take(self.rest.len())?;
        std::str::from_utf8(text).ok()?;
        Some(())
    }

    fn end(&self) -> Option<()> {
        self.rest.is_empty().then_some(())
    }
}

/// Tests the body of an error field.
fn error(tag: u8, mut body: Body) -> Option<()> {
    let (numbers, kinds) = match tag {
        TOKEN_ERROR => (4, 0),
        REPORTED => (19, 54),
        _ => (21, 54),
    };
    body.one_of(1..=numbers)?;
    if tag == TOKEN_ERROR { body.place()? } else { body.place_or_end()? };
    body.at_most(kinds)?;
    body.at_most(kinds)?;
    body.end()
}

// ---- records

/// The kinds of nodes, as `node.rs` types them.
#[derive(Clone, Copy, PartialEq)]
enum Sort {
    Type,
    NamedType,
    Expression,
    Compound,
    CompoundField,
    InitialValue,
    Statement,
    Item,
    Module,
}

fn sort(tag: u8) -> Sort {
    match tag {
        0x10..=0x14 => Sort::Type,
        0x15 => Sort::NamedType,
        0x20..=0x2F => Sort::Expression,
        0x30 | 0x31 => Sort::Compound,
        0x32 => Sort::CompoundField,
        0x33..=0x35 => Sort::InitialValue,
        0x40..=0x4A => Sort::Statement,
        0x50..=0x54 => Sort::Item,
        _ => Sort::Module,
    }
}

/// Tests the body of a record: the sorts of its children.
fn record(tag: u8, mut body: Body) -> Option<Vec<Sort>> {
    use Sort::*;
    if !matches!(tag, 0x15 | 0x33..=0x35 | MODULE) {
        body.place()?;
    }
    let children = match tag {
        // types
        0x10 => body.text().map(|_| vec![])?,
        0x11 => vec![],
        0x12 => vec![Type],
        0x13 => body.take(8).map(|_| vec![Type])?,
        0x14 => vec![NamedType; body.count()?],
        0x15 => body.text().map(|_| vec![Type])?,
        // expressions
        0x20 | 0x23 => body.text().map(|_| vec![])?,
        0x21 => {
            body.one_of([2, 10, 16].into_iter())?;
            body.text()?;
            vec![]
        }
        0x22 => body.at_most(1).map(|_| vec![])?,
        0x24 => vec![Expression; 1 + body.count()?],
        0x25 | 0x2C => vec![Expression, Expression],
        0x26 => vec![Expression, Type],
        0x27 | 0x28 | 0x2A | 0x2B => vec![Expression],
        0x29 => body.text().map(|_| vec![Expression])?,
        0x2D => body.at_most(7).map(|_| vec![Expression, Expression])?,
        0x2E => body.at_most(4).map(|_| vec![Expression, Expression])?,
        0x2F => vec![Type],
        // compounds and initial values
        0x30 => vec![Expression; body.count()?],
        0x31 => vec![CompoundField; body.count()?],
        0x32 => body.text().map(|_| vec![Expression])?,
        0x33 => vec![],
        0x34 => vec![Expression],
        0x35 => vec![Compound],
        // statements
        0x40 => vec![Statement; body.count()?],
        0x41 => vec![Expression],
        0x42 => body.text().map(|_| vec![Type, InitialValue])?,
        0x43 => vec![Expression, Expression],
        0x44 => vec![Expression, Compound],
        0x45 => vec![Expression; body.at_most(1)? as usize],
        0x46 => vec![Statement],
        0x47 => vec![Expression, Statement],
        0x48 => vec![],
        0x49 => match body.one_of(2..=3)? {
            2 => vec![Expression, Statement],
            _ => vec![Expression, Statement, Statement],
        },
        0x4A => body.text().map(|_| vec![])?,
        // items
        0x50 => {
            let external = body.at_most(1)?;
            let mut children = vec![NamedType; body.count()?];
            body.text()?;
            children.push(Type);
            if external == 0 {
                children.push(Statement);
            }
            children
        }
        0x51 => {
            body.at_most(3)?;
            body.text()?;
            vec![Type]
        }
        0x52 | 0x54 => body.text().map(|_| vec![])?,
        0x53 => body.text().map(|_| vec![Type, InitialValue])?,
        MODULE => vec![Item; body.count()?],
        _ => return None,
    };
    body.end()?;
    Some(children)
}

// ---- the tree

struct Field {
    tag: u8,
    /// where the body begins in the file
    start: usize,
    length: usize,
}

struct Tree {
    field: Field,
    children: Vec<Tree>,
}

/// What the fields so far have given. A field that does not fit is none.
#[derive(Default)]
struct Found {
    /// trees whose parent is not there yet
    waiting: Vec<Tree>,
    module: Option<Tree>,
    errors: Vec<Field>,
}

impl Found {
    /// What is left of the file after its next field.
    fn take_field<'a>(&mut self, file: &[u8], rest: &'a [u8]) -> Result<&'a [u8], u8> {
        let (tag, body, after) = first_field(rest).ok_or(14)?;
        let field = Field { tag, start: file.len() - after.len() - body.len(), length: body.len() };
        match tag {
            SKIPPED..=0xFF => (),
            TOKEN_ERROR | REPORTED | FULL => {
                error(tag, Body { rest: body }).ok_or(14)?;
                self.error(field).ok_or(15)?;
            }
            _ => {
                let sorts = record(tag, Body { rest: body }).ok_or(14)?;
                self.record(field, &sorts).ok_or(15)?;
            }
        }
        Ok(after)
    }

    fn record(&mut self, field: Field, sorts: &[Sort]) -> Option<()> {
        if self.module.is_some() {
            return None;
        }
        let mut children = Vec::with_capacity(sorts.len());
        for wanted in sorts.iter().rev() {
            let child = self.waiting.pop()?;
            if sort(child.field.tag) != *wanted {
                return None;
            }
            children.push(child);
        }
        children.reverse();
        let tree = Tree { field, children };
        if tree.field.tag != MODULE {
            self.waiting.push(tree);
        } else if self.waiting.is_empty() {
            self.module = Some(tree);
        } else {
            return None;
        }
        Some(())
    }

    fn error(&mut self, field: Field) -> Option<()> {
        let list = |tag| LISTS.iter().position(|list| *list == tag);
        let before = self.errors.last().and_then(|last| list(last.tag));
        if self.module.is_none() || before > list(field.tag) {
            return None;
        }
        self.errors.push(field);
        Some(())
    }

    /// The records, children first, then the errors.
    fn steps(self) -> Option<Vec<Step>> {
        let mut steps = Vec::new();
        add_steps(&self.module?, &mut steps);
        steps.extend(self.errors.iter().map(|field| step(field, 0)));
        Some(steps)
    }
}

fn add_steps(tree: &Tree, steps: &mut Vec<Step>) {
    for child in &tree.children {
        add_steps(child, steps);
    }
    steps.push(step(&tree.field, tree.children.len()));
}

fn step(field: &Field, children: usize) -> Step {
    [field.tag as u32, children as u32, field.start as u32, field.length as u32]
}
