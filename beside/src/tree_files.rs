//! Tree files by the table of docs/FORMAT.md, with their steps: the smallest of each record, and random ones.

use crate::random::Random;
use formats::{Step, FILE_SIZE, PLACE_LIMIT};

/// What is known of a file without the judge.
#[derive(Clone, PartialEq)]
pub enum Known {
    Nothing,
    Number(u8),
    Steps(Vec<Step>),
}

impl Known {
    /// Whether an answer is what is known.
    pub fn fits(&self, answer: &Result<Vec<Step>, u8>) -> bool {
        match self {
            Known::Nothing => true,
            Known::Number(number) => answer.as_ref().err().unwrap_or(&0) == number,
            Known::Steps(steps) => answer.as_ref() == Ok(steps),
        }
    }
}

#[derive(Clone)]
pub struct Field {
    pub tag: u8,
    pub body: Vec<u8>,
    pub children: usize,
}

/// The bytes of the fields.
pub fn bytes(fields: &[Field]) -> Vec<u8> {
    let mut file = Vec::new();
    for field in fields {
        file.push(field.tag);
        file.extend(two(field.body.len()));
        file.extend(&field.body);
    }
    file
}

/// The steps of an accepted file; a file that is too long has none.
pub fn known(fields: &[Field]) -> Known {
    let (mut steps, mut at) = (Vec::new(), 0);
    for field in fields {
        at += 3;
        if field.tag < 0x70 {
            steps.push([field.tag as u32, field.children as u32, at as u32, field.body.len() as u32]);
        }
        at += field.body.len();
    }
    if at > FILE_SIZE { Known::Number(14) } else { Known::Steps(steps) }
}

/// The fields of a file that the whole operation writes.
pub fn of(file: &[u8]) -> Vec<Field> {
    let (fields, rest) = formats::fields(file);
    assert!(rest.is_empty(), "the file has more than fields");
    fields.into_iter().map(|(tag, body)| Field { tag, body: body.to_vec(), children: children(tag, body) }).collect()
}

/// How many children a record has by its numbers.
fn children(tag: u8, body: &[u8]) -> usize {
    let from = place_bytes(tag) + (tag == 0x50) as usize;
    let count = if COUNTED.contains(&tag) { body[from] as usize * 256 + body[from + 1] as usize } else { 0 };
    let byte = if bytes_of(tag).len() > 1 { body[4] } else { 0 };
    shape(tag, count, byte).1.len()
}

// ---- the table

/// The letters of the children in the table: a type, a named type, an expression, a compound, a field of a compound, an
/// initial value, a statement, an item.
pub const LETTERS: &str = "tnecfvsi";

/// The tags that a letter stands for.
pub fn tags(letter: char) -> Vec<u8> {
    match letter {
        't' => (0x10..=0x14).collect(),
        'n' => vec![0x15],
        'e' => (0x20..=0x2F).collect(),
        'c' => vec![0x30, 0x31],
        'f' => vec![0x32],
        'v' => vec![0x33, 0x34, 0x35],
        's' => (0x40..=0x4A).collect(),
        _ => (0x50..=0x54).collect(),
    }
}

/// The tags of records, the module not among them.
pub fn records() -> Vec<u8> {
    LETTERS.chars().flat_map(tags).collect()
}

pub fn letter(tag: u8) -> char {
    LETTERS.chars().find(|letter| tags(*letter).contains(&tag)).unwrap()
}

/// The records with a count.
pub const COUNTED: [u8; 7] = [0x14, 0x24, 0x30, 0x31, 0x40, 0x50, 0x5F];

/// The records with text.
pub const WITH_TEXT: [u8; 14] =
    [0x10, 0x15, 0x20, 0x21, 0x23, 0x29, 0x32, 0x42, 0x4A, 0x50, 0x51, 0x52, 0x53, 0x54];

/// What a record's byte may be; just 0 where it has none.
pub fn bytes_of(tag: u8) -> Vec<u8> {
    match tag {
        0x21 => vec![2, 10, 16],
        0x22 | 0x45 | 0x50 => vec![0, 1],
        0x2D => (0..=7).collect(),
        0x2E => (0..=4).collect(),
        0x49 => vec![2, 3],
        0x51 => (0..=3).collect(),
        _ => vec![0],
    }
}

pub fn place_bytes(tag: u8) -> usize {
    if matches!(tag, 0x15 | 0x33 | 0x34 | 0x35 | 0x5F) { 0 } else { 4 }
}

/// The numbers of a record with some count or byte, and a letter for each child.
pub fn shape(tag: u8, count: usize, byte: u8) -> (Vec<u8>, String) {
    let many = |letter: &str| letter.repeat(count);
    let (numbers, children) = match tag {
        0x12 | 0x15 | 0x2F => (vec![], "t".to_owned()),
        0x13 => (vec![byte; 8], "t".to_owned()),
        0x14 => (two(count), many("n")),
        0x21 | 0x22 => (vec![byte], String::new()),
        0x24 => (two(count), format!("e{}", many("e"))),
        0x25 | 0x2C | 0x43 => (vec![], "ee".to_owned()),
        0x26 => (vec![], "et".to_owned()),
        0x27..=0x2B | 0x32 | 0x34 | 0x41 => (vec![], "e".to_owned()),
        0x2D | 0x2E => (vec![byte], "ee".to_owned()),
        0x30 => (two(count), many("e")),
        0x31 => (two(count), many("f")),
        0x35 => (vec![], "c".to_owned()),
        0x40 => (two(count), many("s")),
        0x42 | 0x53 => (vec![], "tv".to_owned()),
        0x44 => (vec![], "ec".to_owned()),
        0x45 => (vec![byte], "e".repeat(byte as usize)),
        0x46 => (vec![], "s".to_owned()),
        0x47 => (vec![], "es".to_owned()),
        0x49 => (vec![byte], format!("e{}", "s".repeat(byte as usize - 1))),
        0x50 => ([vec![byte], two(count)].concat(), format!("{}t{}", many("n"), if byte == 0 { "s" } else { "" })),
        0x51 => (vec![byte], "t".to_owned()),
        0x5F => (two(count), many("i")),
        _ => (vec![], String::new()),
    };
    (numbers, children)
}

pub fn two(number: usize) -> Vec<u8> {
    (number as u16).to_be_bytes().to_vec()
}

// ---- records one by one

/// A record at 1:1, with its text.
pub fn record(tag: u8, count: usize, byte: u8, text: &[u8]) -> Field {
    let (numbers, children) = shape(tag, count, byte);
    let body = [&[0, 1, 0, 1][..place_bytes(tag)], &numbers, text].concat();
    Field { tag, body, children: children.len() }
}

/// The smallest record of a tag.
pub fn plain(tag: u8) -> Field {
    record(tag, 0, bytes_of(tag)[0], b"")
}

/// The smallest tree of a letter.
pub fn small(letter: char) -> Vec<Field> {
    smallest(match letter {
        't' => 0x11,
        'n' => 0x15,
        'e' => 0x20,
        'c' => 0x30,
        'f' => 0x32,
        'v' => 0x33,
        's' => 0x48,
        _ => 0x52,
    })
}

/// The smallest trees that a row of letters stands for.
pub fn row(letters: &str) -> Vec<Field> {
    letters.chars().flat_map(small).collect()
}

/// The smallest tree of a tag.
pub fn smallest(tag: u8) -> Vec<Field> {
    tree(tag, 0, bytes_of(tag)[0])
}

/// A record after the smallest children that it can have.
pub fn tree(tag: u8, count: usize, byte: u8) -> Vec<Field> {
    [row(&shape(tag, count, byte).1), vec![record(tag, count, byte, b"")]].concat()
}

/// The fields around a tree of a letter: those before it and those after it make an accepted file.
pub fn around(letter: char) -> (Vec<Field>, Vec<Field>) {
    let (before, after) = match letter {
        't' => (vec![], vec![plain(0x51)]),
        'n' => (vec![], vec![record(0x14, 1, 0, b""), plain(0x51)]),
        'e' => (small('t'), vec![plain(0x34), plain(0x53)]),
        'c' => (small('t'), vec![plain(0x35), plain(0x53)]),
        'f' => (small('t'), vec![record(0x31, 1, 0, b""), plain(0x35), plain(0x53)]),
        'v' => (small('t'), vec![plain(0x53)]),
        's' => (small('t'), vec![plain(0x50)]),
        _ => (vec![], vec![]),
    };
    (before, [after, vec![record(0x5F, 1, 0, b"")]].concat())
}

/// A file around a tree of a letter.
pub fn whole(letter: char, tree: &[Field]) -> Vec<Field> {
    let (before, after) = around(letter);
    [before, tree.to_vec(), after].concat()
}

/// An error field, with its place.
pub fn error(tag: u8, number: u8, place: [u8; 4], expected: u8, got: u8) -> Field {
    Field { tag, body: [&[number][..], &place, &[expected, got]].concat(), children: 0 }
}

/// The largest number of an error in a list.
pub fn most_number(tag: u8) -> u8 {
    match tag {
        0x62 => 4,
        0x60 => 19,
        _ => 21,
    }
}

pub fn plain_error(tag: u8) -> Field {
    error(tag, 1, [0, 1, 0, 1], 0, 0)
}

pub fn other(tag: u8, body: &[u8]) -> Field {
    Field { tag, body: body.to_vec(), children: 0 }
}

// ---- random files

pub const TEXTS: [&str; 10] = ["", "", "a", "x1", "<?>", "width", "é", "\u{0}", "\u{FFFF}\u{10FFFF}", " mov a, b\n"];

struct Trees<'a> {
    random: &'a mut Random,
    /// how many fields there may be before all trees are the smallest
    budget: usize,
    fields: Vec<Field>,
}

/// A file that is accepted, with errors in some.
pub fn random_file(random: &mut Random) -> Vec<Field> {
    let budget = [3, 12, 40, 150][random.below(4)];
    let items = random.below(4);
    let mut trees = Trees { random, budget, fields: Vec::new() };
    for _ in 0..items {
        trees.tree('i');
    }
    trees.put(0x5F, items, 0);
    let mut fields = trees.fields;
    for tag in [0x62, 0x60, 0x61] {
        if random.chance(30) {
            for _ in 0..1 + random.below(3) {
                fields.push(random_error(random, tag));
            }
        }
    }
    fields
}

pub fn random_error(random: &mut Random, tag: u8) -> Field {
    let number = 1 + random.below(most_number(tag) as usize) as u8;
    if tag == 0x62 {
        return error(tag, number, random_place(random), 0, 0);
    }
    let place = if random.chance(30) { [0; 4] } else { random_place(random) };
    let mut kind = || if random.chance(40) { 0 } else { random.below(55) as u8 };
    let (expected, got) = (kind(), kind());
    error(tag, number, place, expected, got)
}

pub fn random_place(random: &mut Random) -> [u8; 4] {
    let mut half = || match random.below(8) {
        0 => PLACE_LIMIT as u16,
        1 => 255 + random.below(3) as u16,
        2 => 1 + random.below(PLACE_LIMIT as usize) as u16,
        _ => 1 + random.below(40) as u16,
    };
    let (line, column) = (half().to_be_bytes(), half().to_be_bytes());
    [line[0], line[1], column[0], column[1]]
}

pub fn random_text(random: &mut Random) -> Vec<u8> {
    if random.chance(2) {
        return random.pick(&TEXTS).repeat(random.below(300)).into_bytes();
    }
    random.pick(&TEXTS).as_bytes().to_vec()
}

impl Trees<'_> {
    fn tree(&mut self, letter: char) {
        let tags = tags(letter);
        let spent = self.fields.len() >= self.budget;
        let tag = if spent { small(letter).pop().unwrap().tag } else { tags[self.random.below(tags.len())] };
        let count = if spent { 0 } else { self.random.below(4) };
        let bytes = bytes_of(tag);
        let byte = bytes[self.random.below(bytes.len())];
        for child in shape(tag, count, byte).1.chars() {
            self.tree(child);
        }
        self.put(tag, count, byte);
    }

    fn put(&mut self, tag: u8, count: usize, byte: u8) {
        let text = if WITH_TEXT.contains(&tag) { random_text(self.random) } else { Vec::new() };
        let mut field = record(tag, count, byte, &text);
        if place_bytes(tag) > 0 {
            field.body[..4].copy_from_slice(&random_place(self.random));
        }
        if tag == 0x13 {
            field.body[4..].copy_from_slice(&self.random.next().to_be_bytes());
        }
        self.fields.push(field);
    }
}

/// A file with skipped fields put in anywhere.
pub fn with_skipped(random: &mut Random, fields: &[Field]) -> Vec<Field> {
    let mut fields = fields.to_vec();
    for _ in 0..1 + random.below(4) {
        let at = random.below(fields.len() + 1);
        let field = random_skipped(random);
        fields.insert(at, field);
    }
    fields
}

pub fn random_skipped(random: &mut Random) -> Field {
    let tag = 0x70 + random.below(0x90) as u8;
    let body = match random.below(5) {
        0 => Vec::new(),
        // what would be a field by itself
        1 => bytes(&[plain(0x48)]),
        _ => (0..random.below(12)).map(|_| random.next() as u8).collect(),
    };
    other(tag, &body)
}

/// Fields in any order, most of them good by themselves, now and then a module and errors at the end.
pub fn soup(random: &mut Random) -> Vec<Field> {
    let records = records();
    let mut fields = Vec::new();
    for _ in 0..random.below(12) {
        let tag = records[random.below(records.len())];
        fields.extend(match random.below(12) {
            0 => vec![random_skipped(random)],
            1 => vec![plain_error([0x62, 0x60, 0x61][random.below(3)])],
            2 => vec![record(0x5F, random.below(3), 0, b"")],
            3 | 4 => vec![plain(tag)],
            5 => small(['t', 'e', 's'][random.below(3)]),
            _ => {
                let bytes = bytes_of(tag);
                tree(tag, random.below(3), bytes[random.below(bytes.len())])
            }
        });
    }
    let items = fields.iter().filter(|field| letters_of(field.tag) == Some('i')).count();
    if random.chance(70) {
        fields.push(record(0x5F, items, 0, b""));
        for tag in [0x62, 0x60, 0x61, 0x61, 0x60] {
            if random.chance(15) {
                fields.push(random_error(random, tag));
            }
        }
    }
    fields
}

fn letters_of(tag: u8) -> Option<char> {
    records().contains(&tag).then(|| letter(tag))
}
