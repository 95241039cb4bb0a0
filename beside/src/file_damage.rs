//! Tree files that are damaged in one place or more.

use crate::random::Random;
use crate::tree_files::{
    bytes, bytes_of, known, place_bytes, plain, plain_error, random_skipped, record, records, two, Field, Known,
    COUNTED, WITH_TEXT,
};

/// Pieces that are no characters, alone or where they are put in.
pub const NO_TEXT: [&[u8]; 14] = [
    b"\x80", b"\xBF", b"\xC0\x80", b"\xC1\xBF", b"\xC3", b"\xE0\x9F\xBF", b"\xED\xA0\x80", b"\xE2\x82",
    b"\xF0\x8F\xBF\xBF", b"\xF4\x90\x80\x80", b"\xF5\x80\x80\x80", b"\xFF", b"\xFE", b"\xF0\x9F\x98",
];

/// An accepted file with one fault or a few; now and then what it must have.
pub fn damaged(random: &mut Random, fields: &[Field]) -> (Vec<u8>, Known) {
    match random.below(10) {
        0 => cut(random, fields),
        1 => zeros_after(random, fields),
        2..=4 => in_bytes(random, bytes(fields)),
        _ => {
            let mut fields = fields.to_vec();
            for _ in 0..1 + random.below(2) {
                in_fields(random, &mut fields);
            }
            (bytes(&fields), Known::Nothing)
        }
    }
}

/// Cut off somewhere: inside a field 14, between fields 15 up to the module.
fn cut(random: &mut Random, fields: &[Field]) -> (Vec<u8>, Known) {
    let mut file = bytes(fields);
    let length = random.below(file.len());
    file.truncate(length);
    let known = known_cut(fields, length);
    (file, known)
}

/// What a file that is cut off after so many bytes must have.
pub fn known_cut(fields: &[Field], length: usize) -> Known {
    let (mut at, mut whole) = (0, 0);
    while at < length {
        at += 3 + fields[whole].body.len();
        whole += 1;
    }
    let whole = &fields[..whole];
    if at > length {
        Known::Number(14)
    } else if whole.iter().any(|field| field.tag == 0x5F) {
        known(whole)
    } else {
        Known::Number(15)
    }
}

fn zeros_after(random: &mut Random, fields: &[Field]) -> (Vec<u8>, Known) {
    let mut file = bytes(fields);
    file.resize(file.len() + 1 + random.below(9), 0);
    (file, Known::Number(14))
}

fn in_bytes(random: &mut Random, mut file: Vec<u8>) -> (Vec<u8>, Known) {
    for _ in 0..1 + random.below(2) {
        let at = random.below(file.len());
        match random.below(7) {
            0 | 1 => file[at] = random.next() as u8,
            2 => file[at] = file[at].wrapping_add([1, 0xFF, 0x80, 0x10][random.below(4)]),
            3 => drop(file.remove(at)),
            4 => file.insert(at, random.next() as u8),
            5 => {
                let other = random.below(file.len());
                file.swap(at, other);
            }
            _ => {
                let end = file.len().min(at + 1 + random.below(20));
                let part = file[at..end].to_vec();
                file.splice(at..at, part);
            }
        }
        if file.is_empty() {
            break;
        }
    }
    (file, Known::Nothing)
}

fn in_fields(random: &mut Random, fields: &mut Vec<Field>) {
    if fields.is_empty() {
        return;
    }
    let at = random.below(fields.len());
    let other = random.below(fields.len());
    match random.below(16) {
        0 => drop(fields.remove(at)),
        1 => fields.insert(at, fields[at].clone()),
        2 => fields.swap(at, other),
        3 => {
            let field = fields.remove(at);
            fields.insert(other.min(fields.len()), field);
        }
        4 | 5 => {
            let field = any_field(random);
            fields.insert(at, field);
        }
        6 => fields[at] = any_field(random),
        7 => fields[at].tag = random.next() as u8,
        8 => length(random, &mut fields[at].body),
        9 | 10 => count(random, fields),
        11 => place(random, &mut fields[at]),
        12 => byte(random, fields),
        13 => text(random, fields),
        14 => errors(random, fields),
        _ => module(random, fields),
    }
}

/// A field with any tag: good by itself, or with a short body.
fn any_field(random: &mut Random) -> Field {
    let tag = random.next() as u8;
    let records = records();
    match random.below(6) {
        0 => Field { tag, body: Vec::new(), children: 0 },
        1 => Field { tag, body: (0..random.below(9)).map(|_| random.next() as u8).collect(), children: 0 },
        2 => random_skipped(random),
        3 => plain_error(0x60 + random.below(3) as u8),
        _ => plain(records[random.below(records.len())]),
    }
}

/// A body that is shorter or longer, with its length stated.
fn length(random: &mut Random, body: &mut Vec<u8>) {
    match random.below(4) {
        0 => drop(body.pop()),
        1 => body.push(random.next() as u8),
        2 => body.clear(),
        _ => body.truncate(4),
    }
}

/// The fields that a test is true of; if there are none, the first.
fn one_of<'a>(random: &mut Random, fields: &'a mut [Field], test: impl Fn(u8) -> bool) -> &'a mut Field {
    let there: Vec<usize> = (0..fields.len()).filter(|at| test(fields[*at].tag)).collect();
    let at = if there.is_empty() { 0 } else { there[random.below(there.len())] };
    &mut fields[at]
}

fn count(random: &mut Random, fields: &mut [Field]) {
    let field = one_of(random, fields, |tag| COUNTED.contains(&tag));
    let from = place_bytes(field.tag) + (field.tag == 0x50) as usize;
    if let Some(part) = field.body.get_mut(from..from + 2) {
        let old = part[0] as usize * 256 + part[1] as usize;
        let new = [old + 1, old.wrapping_sub(1), old + 256, 0, 2_047, 2_048, 2_049, 65_535][random.below(8)];
        part.copy_from_slice(&two(new));
    }
}

fn place(random: &mut Random, field: &mut Field) {
    let from = matches!(field.tag, 0x60..=0x62) as usize + 2 * random.below(2);
    if let Some(part) = field.body.get_mut(from..from + 2) {
        part.copy_from_slice(&two([0, 1, 16_383, 16_384, 16_385, 32_768, 65_535][random.below(7)]));
    }
    if random.chance(20) {
        field.body.iter_mut().skip(from).take(4).for_each(|byte| *byte = 0);
    }
}

fn byte(random: &mut Random, fields: &mut [Field]) {
    let field = one_of(random, fields, |tag| bytes_of(tag).len() > 1 || matches!(tag, 0x60..=0x62));
    let at = if matches!(field.tag, 0x60..=0x62) { [0, 5, 6][random.below(3)] } else { 4 };
    if let Some(byte) = field.body.get_mut(at) {
        *byte = [byte.wrapping_add(1), byte.wrapping_sub(1), 0, 54, 55, 255, random.below(24) as u8][random.below(7)];
    }
}

fn text(random: &mut Random, fields: &mut [Field]) {
    let field = one_of(random, fields, |tag| WITH_TEXT.contains(&tag));
    let start = record(field.tag, 0, bytes_of(field.tag)[0], b"").body.len().min(field.body.len());
    let at = start + random.below(field.body.len() - start + 1);
    let piece = NO_TEXT[random.below(NO_TEXT.len())];
    field.body.splice(at..at, piece.iter().copied());
}

/// Errors at the end or before the module, in any order.
fn errors(random: &mut Random, fields: &mut Vec<Field>) {
    for _ in 0..1 + random.below(3) {
        let at = if random.chance(80) { fields.len() } else { random.below(fields.len() + 1) };
        fields.insert(at, plain_error(0x60 + random.below(3) as u8));
    }
}

/// A second module, a record after it, or none.
fn module(random: &mut Random, fields: &mut Vec<Field>) {
    match random.below(3) {
        0 => fields.push(record(0x5F, random.below(2), 0, b"")),
        1 => {
            let records = records();
            fields.push(plain(records[random.below(records.len())]));
        }
        _ => fields.retain(|field| field.tag != 0x5F),
    }
}
