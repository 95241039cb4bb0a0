//! What is accepted, written again from its steps.

use formats::Step;

/// Whether steps, written as fields, are the file without its skipped fields, and their counts of children those of one
/// tree with errors after it.
pub fn is_file(file: &[u8], steps: &[Step]) -> bool {
    fields(file, steps).is_some_and(|again| again == without_skipped(file)) && one_tree(steps)
}

fn fields(file: &[u8], steps: &[Step]) -> Option<Vec<u8>> {
    let mut again = Vec::new();
    for [tag, _, start, length] in steps {
        put(&mut again, *tag as u8, file.get(*start as usize..)?.get(..*length as usize)?);
    }
    Some(again)
}

fn put(file: &mut Vec<u8>, tag: u8, body: &[u8]) {
    file.push(tag);
    file.extend((body.len() as u16).to_be_bytes());
    file.extend(body);
}

/// Each step takes so many trees as it has children; after the module just it is there.
fn one_tree(steps: &[Step]) -> bool {
    let (mut trees, mut modules) = (0_u32, 0);
    for [tag, children, ..] in steps {
        match tag {
            0x60..=0x62 if *children > 0 || modules == 0 => return false,
            0x60..=0x62 => (),
            _ => {
                let Some(left) = trees.checked_sub(*children) else { return false };
                trees = left + 1;
                modules += (*tag == 0x5F) as u32;
            }
        }
    }
    modules == 1 && trees == 1
}

/// The fields below 70.
pub fn without_skipped(file: &[u8]) -> Vec<u8> {
    let mut rest = Vec::new();
    for (tag, body) in formats::fields(file).0 {
        if tag < 0x70 {
            put(&mut rest, tag, body);
        }
    }
    rest
}

/// The steps of the file without its skipped fields: the bodies stand after one another.
pub fn moved(steps: &[Step]) -> Vec<Step> {
    let mut at = 0;
    let mut moved = Vec::new();
    for [tag, children, _, length] in steps {
        moved.push([*tag, *children, at + 3, *length]);
        at += 3 + length;
    }
    moved
}
