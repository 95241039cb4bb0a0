//! The classes of tree files: those of scripts, and files that no script has.

use crate::ask;
use crate::classes::{self, Class};
use crate::file_damage::{damaged, known_cut};
use crate::random::Random;
use crate::stored_cases;
use crate::tree_files::{
    bytes, known, of, other, plain, plain_error, random_file, record, records, small, soup, with_skipped, Field, Known,
};
use formats::FILE_SIZE;

/// The classes of files alone.
pub const NAMES: &str = "edges trees fields each-byte each-tag each-cut";

pub const DEFAULT: [&str; 15] = [
    "edges", "each-byte:12", "each-tag:12", "each-cut:200", "trees:20000", "fields:50000", "paper", "constructs",
    "boundary", "latin:6", "losses:1", "tests", "valid:3000", "damaged:3000", "soup:3000",
];

/// How many damaged files there are for an accepted one.
const DAMAGED: usize = 8;

/// Gives each file of a class, with what is known of it.
pub fn files(class: &Class, each: &mut dyn FnMut(&[u8], &Known)) {
    let mut random = Random::new(class.seed);
    match class.name.as_str() {
        "edges" => {
            for case in stored_cases::cases().into_iter().chain(stored_cases::more()) {
                // slices of other lengths are the comparison's own
                if case.known != Known::Number(3) {
                    each(&case.file, &case.known);
                }
            }
        }
        "trees" => {
            for _ in 0..class.count {
                let fields = random_file(&mut random);
                with_damage(&mut random, &fields, each);
            }
        }
        "fields" => {
            for _ in 0..class.count {
                each(&bytes(&soup(&mut random)), &Known::Nothing);
            }
        }
        "each-byte" => small_files(class.count, &mut random, each_byte, each),
        "each-tag" => small_files(class.count, &mut random, each_tag, each),
        "each-cut" => small_files(class.count, &mut random, each_cut, each),
        _ => classes::scripts(class, &mut |script| match ask::answer(script).whole {
            Ok(file) => {
                let fields = of(&file);
                assert!(bytes(&fields) == file, "the file is not its fields");
                with_damage(&mut random, &fields, each);
            }
            // what the program writes for it
            Err(number) => each(&[0x7F, 0, 1, number], &Known::Number(15)),
        }),
    }
}

/// An accepted file, the same with skipped fields, and damaged ones.
fn with_damage(random: &mut Random, fields: &[Field], each: &mut dyn FnMut(&[u8], &Known)) {
    each(&bytes(fields), &known(fields));
    let more = with_skipped(random, fields);
    each(&bytes(&more), &known(&more));
    for at in 0..DAMAGED {
        let (file, known) = damaged(random, if at % 4 == 0 { &more } else { fields });
        if file.len() <= 2 * FILE_SIZE {
            each(&file, &known);
        }
    }
}

/// What is done with a small file.
type Change = fn(&[Field], &mut dyn FnMut(&[u8], &Known));

fn small_files(count: usize, random: &mut Random, change: Change, each: &mut dyn FnMut(&[u8], &Known)) {
    let mut done = 0;
    while done < count {
        let mut fields = random_file(random);
        if random.chance(30) {
            fields = with_skipped(random, &fields);
        }
        // neither nothing but a module nor long
        if (5..40).contains(&fields.len()) && bytes(&fields).len() < 400 {
            change(&fields, each);
            done += 1;
        }
    }
}

/// Each byte with each other value; each byte removed, doubled, swapped with the next.
fn each_byte(fields: &[Field], each: &mut dyn FnMut(&[u8], &Known)) {
    let file = bytes(fields);
    each(&file, &known(fields));
    for at in 0..file.len() {
        let mut changed = file.clone();
        for other in 1..=255 {
            changed[at] = file[at].wrapping_add(other);
            each(&changed, &Known::Nothing);
        }
        let (before, after) = file.split_at(at);
        each(&[before, &after[1..]].concat(), &Known::Nothing);
        each(&[before, &after[..1], after].concat(), &Known::Nothing);
        if at > 0 {
            let mut swapped = file.clone();
            swapped.swap(at - 1, at);
            each(&swapped, &Known::Nothing);
        }
        for byte in [0, 0x33, 0x70, 0xFF] {
            each(&[before, &[byte], after].concat(), &Known::Nothing);
        }
    }
}

/// A field with each tag between any two, in forms that are good for some of them, and in the place of each; each field
/// removed, doubled and swapped with each other.
fn each_tag(fields: &[Field], each: &mut dyn FnMut(&[u8], &Known)) {
    let records = records();
    let good = |tag: u8| match tag {
        0x5F => record(tag, 0, 0, b""),
        0x60..=0x62 => plain_error(tag),
        _ if records.contains(&tag) => plain(tag),
        _ => other(tag, b"\x00\x01\x00\x01"),
    };
    for at in 0..=fields.len() {
        let (before, after) = fields.split_at(at);
        for tag in 0..=255 {
            let forms = [
                other(tag, b""),
                good(tag),
                other(tag, b"\x00\x01\x00\x01\x01"),
                other(tag, &[1; 7]),
            ];
            for form in forms {
                let skipped = form.tag >= 0x70;
                let more = [before, &[form.clone()], after].concat();
                each(&bytes(&more), &if skipped { known(&more) } else { Known::Nothing });
                if let Some((_, after)) = after.split_first() {
                    each(&bytes(&[before, &[form], after].concat()), &Known::Nothing);
                }
            }
            if let Some((field, after)) = after.split_first() {
                let mut field = field.clone();
                field.tag = tag;
                each(&bytes(&[before, &[field], after].concat()), &Known::Nothing);
            }
        }
        for letter in ['t', 'n', 'e', 'c', 'f', 'v', 's', 'i'] {
            each(&bytes(&[before, &small(letter), after].concat()), &Known::Nothing);
        }
        let Some((field, rest)) = after.split_first() else { continue };
        each(&bytes(&[before, rest].concat()), &Known::Nothing);
        each(&bytes(&[before, &[field.clone()], after].concat()), &Known::Nothing);
        for other in at + 1..fields.len() {
            let mut swapped = fields.to_vec();
            swapped.swap(at, other);
            each(&bytes(&swapped), &Known::Nothing);
        }
    }
}

/// The file cut off at each byte, and with one to ten zeros after it.
fn each_cut(fields: &[Field], each: &mut dyn FnMut(&[u8], &Known)) {
    let file = bytes(fields);
    for length in 0..file.len() {
        each(&file[..length], &known_cut(fields, length));
    }
    for zeros in 1..=10 {
        each(&[&file[..], &vec![0; zeros]].concat(), &Known::Number(14));
    }
}
