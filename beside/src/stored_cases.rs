//! Hand-made tree files for Load, each with the number that the table of docs/FORMAT.md gives it.

use crate::file_damage::{known_cut, NO_TEXT};
use crate::tree_files::{
    around, bytes, bytes_of, error, known, letter, most_number, other, place_bytes, plain, plain_error, record,
    records, row, shape, small, smallest, tree, two, whole, Field, Known, COUNTED, LETTERS, WITH_TEXT,
};
use formats::{FILE_SIZE, STEP_WORDS};

pub struct Case {
    pub sort: &'static str,
    pub file: Vec<u8>,
    pub known: Known,
    /// words of the slice
    pub records: usize,
}

/// Adds the cases of a sort.
type Sort = fn(&mut Made);

const SORTS: [(&str, Sort); 18] = [
    ("examples", examples),
    ("tags", tags_alone),
    ("children", children),
    ("missing children", missing),
    ("lengths", lengths),
    ("places", places),
    ("counts", counts),
    ("bytes", single_bytes),
    ("texts", texts),
    ("UTF-8", utf8),
    ("errors", errors),
    ("order of errors", order),
    ("the module", module),
    ("skipped fields", skipped),
    ("cut short", cut),
    ("two reasons", priority),
    ("lengths of slices", slices),
    ("limits of files", limits),
];

/// The cases of the list.
pub fn cases() -> Vec<Case> {
    let mut made = Made { sort: "", cases: Vec::new() };
    for (sort, add) in SORTS {
        made.sort = sort;
        add(&mut made);
    }
    made.cases
}

/// More of them, for the library alone.
pub fn more() -> Vec<Case> {
    let mut made = Made { sort: "more limits", cases: Vec::new() };
    more_limits(&mut made);
    made.cases
}

struct Made {
    sort: &'static str,
    cases: Vec<Case>,
}

impl Made {
    /// Fields that are a file with this number; its steps are theirs where it is 0.
    fn file(&mut self, number: u8, fields: &[Field]) {
        let known = if number == 0 { known(fields) } else { Known::Number(number) };
        self.put(bytes(fields), known, STEP_WORDS);
    }

    fn bytes(&mut self, number: u8, file: &[u8]) {
        self.put(file.to_vec(), Known::Number(number), STEP_WORDS);
    }

    fn put(&mut self, file: Vec<u8>, known: Known, records: usize) {
        self.cases.push(Case { sort: self.sort, file, known, records });
    }

    /// A file with a tree whose last record is another.
    fn last(&mut self, number: u8, tag: u8, count: usize, byte: u8, change: impl FnOnce(&mut Field)) {
        let mut tree = tree(tag, count, byte);
        change(tree.last_mut().unwrap());
        self.file(number, &whole(letter(tag), &tree));
    }
}

fn empty_module() -> Field {
    record(0x5F, 0, 0, b"")
}

/// The file of `var x: T = f(7);` or so, with a skipped field in it and an error of each list.
fn example() -> Vec<Field> {
    let mut fields = vec![
        record(0x10, 0, 0, b"T"),
        record(0x20, 0, 0, b"f"),
        record(0x21, 0, 10, b"7"),
        record(0x24, 1, 0, b""),
        other(0x7E, b"\x11\x00\x00"),
        plain(0x34),
        record(0x53, 0, 0, "é".as_bytes()),
        record(0x5F, 1, 0, b""),
    ];
    fields.extend([0x62, 0x60, 0x61].map(plain_error));
    fields
}

/// Those of docs/FORMAT.md.
fn examples(made: &mut Made) {
    let mut fields = vec![record(0x10, 0, 0, b"T"), plain(0x33), record(0x53, 0, 0, b"x"), record(0x5F, 1, 0, b"")];
    fields[0].body[3] = 8;
    made.file(0, &fields);
    fields.insert(0, other(0x70, b"\xFF"));
    made.file(0, &fields);
    for (number, file) in [
        (14, &b"\x5F\x00\x02\x00\x00\x00"[..]),
        (15, b"\x33\x00\x00\x5F\x00\x02\x00\x00\x00"),
        (15, b"\x5F\x00\x02\x00\x00\x5F\x00\x02\x00\x00"),
        (15, b"\x5F\x00\x02\x08\x00"),
        (14, b"\x5F\x00\x02\x08\x01"),
        (14, b"\x5F\x00\x02\x00\x00\x70\x00\x02\xFF"),
        (15, b"\x7F\x00\x01\x09"),
        (15, b""),
    ] {
        made.bytes(number, file);
    }
}

/// Each tag with an empty body before an empty module.
fn tags_alone(made: &mut Made) {
    for tag in 0..=255 {
        let number = match tag {
            0x70..=0xFF => 0,
            0x15 | 0x33 | 0x34 | 0x35 => 15,
            _ => 14,
        };
        made.file(number, &[other(tag, b""), empty_module()]);
    }
    // an unknown tag with the body of a record
    for tag in [0x00, 0x01, 0x0F, 0x16, 0x1F, 0x36, 0x3F, 0x4B, 0x4F, 0x55, 0x5E, 0x63, 0x6F] {
        for body in [&[0, 1, 0, 1][..], b"\x00\x01", b"\x01\x00\x01\x00\x01\x00\x00"] {
            made.file(14, &[other(tag, body), empty_module()]);
            made.file(14, &[empty_module(), other(tag, body)]);
        }
    }
}

/// Each record with each tag in the place of each child.
fn children(made: &mut Made) {
    for parent in records() {
        for byte in bytes_of(parent) {
            // the operators have the same children
            if matches!(parent, 0x2D | 0x2E | 0x51) && byte > 0 {
                continue;
            }
            let count = if COUNTED.contains(&parent) { 2 } else { 0 };
            let wanted = shape(parent, count, byte).1;
            for at in 0..wanted.len() {
                let due = wanted[at..].chars().next().unwrap();
                // the other ones of a row of the same are not tried with all tags
                let again = at > 0 && wanted[..at].ends_with(due);
                for child in records() {
                    if again && !['t', 'e', 's', 'v'].map(|letter| small(letter).pop().unwrap().tag).contains(&child) {
                        continue;
                    }
                    let tree = [
                        row(&wanted[..at]),
                        smallest(child),
                        row(&wanted[at + 1..]),
                        vec![record(parent, count, byte, b"")],
                    ];
                    let number = if letter(child) == due { 0 } else { 15 };
                    made.file(number, &whole(letter(parent), &tree.concat()));
                }
            }
        }
    }
    for child in records() {
        let number = if letter(child) == 'i' { 0 } else { 15 };
        made.file(number, &[smallest(child), vec![record(0x5F, 1, 0, b"")]].concat());
        made.file(number, &[smallest(child), small('i'), vec![record(0x5F, 2, 0, b"")]].concat());
        made.file(number, &[small('i'), smallest(child), vec![record(0x5F, 2, 0, b"")]].concat());
    }
}

/// Each record with a child less, or one more.
fn missing(made: &mut Made) {
    for parent in records() {
        for byte in bytes_of(parent) {
            if matches!(parent, 0x2D | 0x2E | 0x51) && byte > 0 {
                continue;
            }
            for count in if COUNTED.contains(&parent) { 0..3 } else { 0..1 } {
                let wanted = shape(parent, count, byte).1;
                let last = record(parent, count, byte, b"");
                made.file(0, &whole(letter(parent), &tree(parent, count, byte)));
                for less in 0..wanted.len() {
                    let rest = format!("{}{}", &wanted[..less], &wanted[less + 1..]);
                    let tree = [row(&rest), vec![last.clone()]].concat();
                    // alone, so that nothing before it is taken for the child
                    made.file(15, &[tree.clone(), vec![empty_module()]].concat());
                    made.file(15, &whole(letter(parent), &tree));
                }
                if let Some(more) = wanted.chars().last() {
                    let tree = [row(&wanted), small(more), vec![last.clone()]].concat();
                    made.file(15, &whole(letter(parent), &tree));
                }
            }
        }
    }
}

/// Each record with other lengths.
fn lengths(made: &mut Made) {
    for tag in records() {
        let text = WITH_TEXT.contains(&tag);
        let least = plain(tag).body.len();
        for length in 0..least + 10 {
            let number = if length == least || (text && length > least) { 0 } else { 14 };
            made.last(number, tag, 0, bytes_of(tag)[0], |field| field.body.resize(length, b'a'));
        }
        // 256 bytes more, so that the low byte of the length is right
        let number = if text { 0 } else { 14 };
        made.last(number, tag, 0, bytes_of(tag)[0], |field| field.body.resize(least + 256, b'a'));
    }
    for length in [0, 1, 3, 4, 258] {
        made.file(14, &[other(0x5F, &vec![0; length])]);
    }
    for tag in [0x62, 0x60, 0x61] {
        for length in [0, 1, 3, 4, 5, 6, 7, 8, 11, 263] {
            let mut field = plain_error(tag);
            field.body.resize(length, 0);
            made.file(if length == 7 { 0 } else { 14 }, &[empty_module(), field]);
        }
    }
}

/// Halves of places at their bounds, and some whose bytes are good by themselves.
const HALVES: [(usize, bool); 12] = [
    (0, false),
    (1, true),
    (127, true),
    (128, true),
    (255, true),
    (256, true),
    (16_383, true),
    (16_384, true),
    (16_385, false),
    (16_640, false),
    (32_769, false),
    (65_535, false),
];

fn places(made: &mut Made) {
    for tag in records() {
        if place_bytes(tag) == 0 {
            continue;
        }
        for (half, good) in HALVES {
            for from in [0, 2] {
                let number = if good { 0 } else { 14 };
                let put = |field: &mut Field| field.body[from..from + 2].copy_from_slice(&two(half));
                made.last(number, tag, 0, bytes_of(tag)[0], put);
            }
        }
        made.last(14, tag, 0, bytes_of(tag)[0], |field| field.body[..4].fill(0));
    }
    for tag in [0x62, 0x60, 0x61] {
        for (half, good) in HALVES {
            for from in [1, 3] {
                let mut field = plain_error(tag);
                field.body[from..from + 2].copy_from_slice(&two(half));
                made.file(if good { 0 } else { 14 }, &[empty_module(), field]);
            }
        }
    }
    // 0:0 with each number, also one that is too large, and with kinds
    for tag in [0x62, 0x60, 0x61] {
        for number in 1..=most_number(tag) + 3 {
            let good = tag != 0x62 && number <= most_number(tag);
            made.file(if good { 0 } else { 14 }, &[empty_module(), error(tag, number, [0; 4], 0, 0)]);
            made.file(if good { 0 } else { 14 }, &[empty_module(), error(tag, number, [0; 4], 54, 1)]);
        }
    }
}

/// A record with so many children, and another count stated.
fn counted(made: &mut Made, number: u8, tag: u8, there: usize, stated: usize) {
    let byte = bytes_of(tag)[0];
    let children = row(&shape(tag, there, byte).1);
    let tree = [children, vec![record(tag, stated, byte, b"")]].concat();
    made.file(number, &if tag == 0x5F { tree } else { whole(letter(tag), &tree) });
}

fn counts(made: &mut Made) {
    for tag in COUNTED {
        for there in 0..4 {
            for stated in 0..5 {
                counted(made, if there == stated { 0 } else { 15 }, tag, there, stated);
            }
        }
        counted(made, 0, tag, 256, 256);
        // the low byte, the high byte, the bytes swapped
        for (there, stated) in [(1, 257), (1, 256), (0, 256), (257, 1), (255, 256), (256, 255)] {
            counted(made, 15, tag, there, stated);
        }
        for stated in [2_049, 2_050, 2_304, 4_096, 0x8000, 0x8001, 65_535] {
            counted(made, 14, tag, 1, stated);
        }
        counted(made, 15, tag, 3, 2_048);
    }
    for tag in COUNTED {
        counted(made, 0, tag, 2_048, 2_048);
    }
    counted(made, 14, 0x40, 2_049, 2_049);
    counted(made, 15, 0x40, 2_047, 2_048);
    counted(made, 15, 0x5F, 2_048, 2_047);
}

/// Each byte that a record can have, and others; each size of an array.
fn single_bytes(made: &mut Made) {
    for tag in records() {
        let allowed = bytes_of(tag);
        if allowed.len() == 1 {
            continue;
        }
        for byte in (0..=20).chain([32, 127, 128, 129, 255]) {
            // with the children that it would have, also where it is not allowed
            let wanted = match tag {
                0x49 if byte == 0 => "e".to_owned(),
                _ => shape(tag, 0, byte.min(40)).1,
            };
            let last = Field { children: wanted.len(), ..with_byte(tag, byte) };
            let tree = [row(&wanted), vec![last]].concat();
            made.file(if allowed.contains(&byte) { 0 } else { 14 }, &whole(letter(tag), &tree));
            // alone, so that it would be 15 where its byte is allowed
            if !allowed.contains(&byte) && byte <= 17 {
                made.file(14, &[with_byte(tag, byte), empty_module()]);
            }
        }
    }
    for byte in [0, 1, 127, 128, 255] {
        made.last(0, 0x13, 0, byte, |_| ());
    }
    // each byte of a size alone
    for at in 4..12 {
        made.last(0, 0x13, 0, 0, |field| field.body[at] = 0x80);
    }
}

fn with_byte(tag: u8, byte: u8) -> Field {
    let mut field = plain(tag);
    field.body[4] = byte;
    field
}

fn texts(made: &mut Made) {
    for tag in WITH_TEXT {
        for byte in bytes_of(tag) {
            for text in ["", "a", "\u{0}", "é", "\u{FFFF}", "\u{1F600}", "<?>", "\n\r\t \u{7F}"] {
                let tree = [row(&shape(tag, 0, byte).1), vec![record(tag, 0, byte, text.as_bytes())]].concat();
                made.file(0, &whole(letter(tag), &tree));
            }
        }
        let byte = bytes_of(tag)[0];
        for piece in NO_TEXT {
            made.last(14, tag, 0, byte, |field| field.body.extend(piece));
        }
        made.last(14, tag, 0, byte, |field| field.body.extend(b"ab\xFFcd"));
        made.last(14, tag, 0, byte, |field| field.body.extend("a long text ".repeat(30).bytes().chain([0x80])));
        made.last(0, tag, 0, byte, |field| field.body.extend("a long text ".repeat(30).bytes()));
        if place_bytes(tag) == 4 {
            // the last byte before the text and its first are a character only together
            made.last(14, tag, 0, byte, |field| {
                field.body[3] = 0xC3;
                field.body.push(0xA9);
            });
            // the place is no text
            made.last(0, tag, 0, byte, |field| {
                field.body[1] = 0xFF;
                field.body[3] = 0x80;
                field.body.extend(b"a");
            });
        }
    }
    // sizes are no text
    made.last(0, 0x13, 0, 0xFF, |_| ());
}

/// First bytes at the bounds, and the bytes at the bounds after them.
fn utf8(made: &mut Made) {
    let mut piece = |text: &[u8], good: bool| {
        let field = record(0x52, 0, 0, &[b"a", text, b"b"].concat());
        made.file(if good { 0 } else { 14 }, &whole('i', &[field]));
    };
    let seconds = [0x7F, 0x80, 0x8F, 0x90, 0x9F, 0xA0, 0xBF, 0xC0];
    // the first and last second byte that is allowed, and how many bytes come after it
    let rows: [(u8, u8, u8, usize); 17] = [
        (0xC0, 1, 0, 0),
        (0xC1, 1, 0, 0),
        (0xC2, 0x80, 0xBF, 0),
        (0xDF, 0x80, 0xBF, 0),
        (0xE0, 0xA0, 0xBF, 1),
        (0xE1, 0x80, 0xBF, 1),
        (0xEC, 0x80, 0xBF, 1),
        (0xED, 0x80, 0x9F, 1),
        (0xEE, 0x80, 0xBF, 1),
        (0xEF, 0x80, 0xBF, 1),
        (0xF0, 0x90, 0xBF, 2),
        (0xF1, 0x80, 0xBF, 2),
        (0xF3, 0x80, 0xBF, 2),
        (0xF4, 0x80, 0x8F, 2),
        (0xF5, 1, 0, 2),
        (0xF8, 1, 0, 2),
        (0xFF, 1, 0, 2),
    ];
    for (first, from, to, after) in rows {
        for second in seconds {
            piece(&[&[first, second][..], &vec![0x80; after]].concat(), (from..=to).contains(&second));
        }
        for later in [0x7F, 0xBF, 0xC0] {
            for at in 0..after {
                let mut text = [&[first, from.max(0x80)][..], &vec![0x80; after]].concat();
                text[2 + at] = later;
                piece(&text, from <= to && later == 0xBF);
            }
        }
        // one byte less
        piece(&[&[first][..], &vec![0xA0; after]].concat(), false);
    }
    for byte in [0, 0x7F, 0x80, 0xBF] {
        piece(&[byte], byte < 0x80);
    }
}

fn errors(made: &mut Made) {
    let place = [0, 1, 0, 1];
    for tag in [0x62, 0x60, 0x61] {
        for number in (0..=24).chain([127, 128, 255]) {
            let good = (1..=most_number(tag)).contains(&number);
            made.file(if good { 0 } else { 14 }, &[empty_module(), error(tag, number, place, 0, 0)]);
            made.file(if good && tag != 0x62 { 0 } else { 14 }, &[empty_module(), error(tag, number, place, 1, 54)]);
            let other = [0x40, 0, 0, number.max(1)];
            made.file(if good { 0 } else { 14 }, &[empty_module(), error(tag, number, other, 0, 0), plain_error(0x61)]);
        }
        for kind in [0, 1, 2, 53, 54, 55, 56, 127, 128, 255] {
            let good = kind == 0 || (tag != 0x62 && kind < 55);
            for number in [1, 2, 3, 4, most_number(tag)] {
                made.file(if good { 0 } else { 14 }, &[empty_module(), error(tag, number, place, kind, 0)]);
                made.file(if good { 0 } else { 14 }, &[empty_module(), error(tag, number, place, 0, kind)]);
            }
        }
    }
    // the full list may have its numbers in any order
    let full = [21, 1, 20, 19, 20].map(|number| error(0x61, number, place, 0, 0));
    made.file(0, &[&[empty_module()], &full[..]].concat());
    for number in [20, 21] {
        let reported = error(0x60, number, place, 0, 0);
        made.file(14, &[&[empty_module(), plain_error(0x60), reported], &full[..]].concat());
    }
}

/// All rows of up to three errors, each in a place of its own, and errors before the module.
fn order(made: &mut Made) {
    let tags = [0x62, 0x60, 0x61];
    let mut rows: Vec<Vec<usize>> = vec![vec![]];
    for at in 0.. {
        let Some(row) = rows.get(at).cloned() else { break };
        let mut fields = [small('i'), vec![record(0x5F, 1, 0, b"")]].concat();
        fields.extend(row.iter().zip(1..).map(|(list, line)| error(tags[*list], 1, [0, line, 0, 2], 0, 0)));
        made.file(if row.is_sorted() { 0 } else { 15 }, &fields);
        if row.len() < 3 {
            rows.extend((0..3).map(|list| [&row[..], &[list]].concat()));
        }
    }
    let [a, b, c] = tags.map(plain_error);
    made.file(0, &[vec![empty_module()], vec![a.clone(); 300], vec![b.clone(); 300], vec![c.clone(); 300]].concat());
    made.file(15, &[a.clone(), b.clone(), c.clone(), empty_module()]);
    made.file(15, &[empty_module(), a.clone(), other(0x70, b""), c.clone(), other(0xFF, b""), b.clone()]);
    for error in [a, b, c] {
        made.file(15, &[error.clone(), empty_module()]);
        made.file(15, &[error.clone(), empty_module(), error.clone()]);
        made.file(15, &[error.clone()]);
        made.file(15, &[small('i'), vec![error.clone(), record(0x5F, 1, 0, b"")]].concat());
        // between two records, where it waits like one, or where no child is due
        made.file(15, &[small('t'), vec![error.clone(), plain(0x51), record(0x5F, 1, 0, b"")]].concat());
        made.file(15, &[error.clone(), plain(0x34), empty_module()]);
        made.file(15, &[empty_module(), error.clone(), record(0x5F, 1, 0, b"")]);
        for child in LETTERS.chars() {
            let (before, after) = around(child);
            made.file(15, &[before, vec![error.clone()], after].concat());
        }
    }
}

fn module(made: &mut Made) {
    let module = |count| record(0x5F, count, 0, b"");
    // no module
    made.file(15, &[]);
    made.file(15, &small('i'));
    made.file(15, &small('e'));
    made.file(15, &[plain(0x33)]);
    for number in 0..=21 {
        made.file(15, &[other(0x7F, &[number])]);
        made.file(0, &[other(0x7F, &[number]), empty_module()]);
    }
    // left over beside it
    made.bytes(15, &[0x33, 0, 0, 0x5F, 0, 2, 0, 0, 0]);
    for rest in records() {
        let tree = smallest(rest);
        made.file(15, &[tree.clone(), vec![empty_module()]].concat());
        made.file(15, &[tree.clone(), small('i'), vec![module(1)]].concat());
        made.file(15, &[small('i'), tree.clone(), vec![module(1)]].concat());
        made.file(15, &[small('i'), vec![module(1)], tree.clone()].concat());
        made.file(15, &[small('i'), vec![module(1)], vec![plain(rest)]].concat());
        made.file(15, &[small('i'), vec![module(1)], vec![plain_error(0x62)], tree].concat());
    }
    made.file(15, &[vec![plain(0x33); 3], vec![empty_module()]].concat());
    // a second one
    made.file(15, &[empty_module(), empty_module()]);
    made.file(15, &[empty_module(), module(1)]);
    made.file(15, &[small('i'), vec![module(1)], small('i'), vec![module(1)]].concat());
    made.file(15, &[small('i'), vec![module(1)], small('i'), vec![module(2)]].concat());
    made.file(15, &[empty_module(), plain_error(0x61), empty_module()]);
    for child in LETTERS.chars() {
        let (before, after) = around(child);
        made.file(15, &[before, vec![empty_module()], after].concat());
    }
    // zeros after it
    for zeros in [1, 2, 3, 4, 6, 100, 300] {
        for fields in [vec![empty_module()], example()] {
            made.bytes(14, &[bytes(&fields), vec![0; zeros]].concat());
        }
    }
}

fn skipped(made: &mut Made) {
    let example = example();
    for tag in 0x70..=255 {
        let at = tag as usize % (example.len() + 1);
        let mut fields = example.clone();
        fields.insert(at, other(tag, &vec![tag; tag as usize % 7]));
        made.file(0, &fields);
        made.file(15, &[other(tag, b"\x00\x01")]);
        // cut short
        made.bytes(14, &[tag, 0, 1]);
    }
    for at in 0..=example.len() {
        for body in [&b""[..], b"\xFF", b"\x00", b"\x5F\x00\x02\x00\x00", &[0x80; 300]] {
            let mut fields = example.clone();
            fields.insert(at, other(0x70 + 10 * at as u8, body));
            made.file(0, &fields);
        }
        // one byte of it missing, and what follows taken for it
        let (before, after) = example.split_at(at);
        made.bytes(14, &[bytes(before), vec![0x80, 0xFF, 0xFF], bytes(after)].concat());
    }
    let mut between = vec![other(0xFF, b"first")];
    for field in example {
        between.extend([field, other(0x70, b"")]);
    }
    made.file(0, &between);
}

fn cut(made: &mut Made) {
    let example = example();
    for length in 0..bytes(&example).len() {
        made.put(bytes(&example)[..length].to_vec(), known_cut(&example, length), STEP_WORDS);
    }
    // each record cut off, with as many bytes as it states or one less
    for tag in records().into_iter().chain([0x5F, 0x62, 0x60, 0x61, 0x70, 0xFF, 0x00]) {
        made.bytes(14, &[tag]);
        made.bytes(14, &[tag, 0]);
        made.bytes(14, &[tag, 0, 4, 0, 1, 0]);
        made.bytes(14, &[tag, 1, 4, 0, 1, 0, 1]);
        made.bytes(14, &[tag, 255, 255]);
    }
    for tail in [&[0x5F][..], &[0x5F, 0], &[0x62, 0, 7, 1], &[0x70, 0], &[0x33, 0], &[0], &[0, 0]] {
        made.bytes(14, &[bytes(&[empty_module()]), tail.to_vec()].concat());
    }
}

/// Two faults in a field, where 14 is tested first, and in two fields, where the first decides.
fn priority(made: &mut Made) {
    let bad_places = [(0, 0), (0, 1), (1, 0), (16_385, 1)];
    for tag in records() {
        if shape(tag, 1, bytes_of(tag)[0]).1.is_empty() {
            continue;
        }
        // children missing, and a body that is not good
        let mut long = plain(tag);
        long.body.insert(0, 0);
        if tag != 0x15 {
            made.file(14, &[long]);
        }
        if place_bytes(tag) == 4 {
            for (line, column) in bad_places {
                let mut field = record(tag, 1, bytes_of(tag)[0], b"");
                field.body[..4].copy_from_slice(&[two(line), two(column)].concat());
                made.file(14, &[field]);
            }
        }
        if WITH_TEXT.contains(&tag) {
            made.file(14, &[record(tag, 1, bytes_of(tag)[0], b"\x80")]);
        }
        if COUNTED.contains(&tag) {
            made.file(14, &[record(tag, 2_049, 0, b"")]);
        }
        if bytes_of(tag).len() > 1 {
            made.file(14, &[with_byte(tag, 9)]);
        }
    }
    made.file(14, &[record(0x5F, 2_049, 0, b"")]);
    made.file(14, &[plain(0x33), record(0x5F, 2_049, 0, b"")]);
    for tag in [0x62, 0x60, 0x61] {
        let bad = [
            error(tag, 0, [0, 1, 0, 1], 0, 0),
            error(tag, 1, [0, 0, 0, 1], 0, 0),
            error(tag, 1, [0, 1, 0x40, 1], 0, 0),
            error(tag, 1, [0, 1, 0, 1], 55, 0),
            error(tag, 1, [0, 1, 0, 1], 0, 55),
            other(tag, b""),
        ];
        for field in bad {
            // before the module, or out of the order, and bad
            made.file(14, &[field.clone(), empty_module()]);
            made.file(14, &[empty_module(), plain_error(0x61), field.clone()]);
            // a field before it decides
            made.file(15, &[empty_module(), empty_module(), field.clone()]);
            made.file(15, &[plain(0x12), field]);
        }
    }
    let last = [0x10, 0x52, 0x48].map(plain);
    for field in last {
        let mut bad = field.clone();
        bad.body[..4].fill(0);
        // after the module, and bad
        made.file(14, &[empty_module(), bad.clone()]);
        made.file(15, &[empty_module(), field, bad.clone()]);
        made.file(14, &[bad.clone(), plain(0x12)]);
        made.file(15, &[plain(0x12), bad]);
    }
    made.file(14, &[empty_module(), record(0x5F, 2_049, 0, b"")]);
    made.file(14, &[empty_module(), other(0x5F, b"\x00")]);
    made.file(14, &[empty_module(), other(0x00, b"")]);
    made.bytes(15, &[0x34, 0, 0, 0x5F]);
    made.bytes(14, &[0x34, 0, 1, 0x5F]);
    made.bytes(14, &[0x34, 0]);
    made.bytes(15, &[0x5F, 0, 2, 0, 1, 0, 0]);
    made.bytes(15, &[0x62, 0, 7, 1, 0, 1, 0, 1, 0, 0, 0xFF]);
}

/// The most words of a slice; the program that replays has no more room.
const WORDS_MOST: usize = 100_000;

fn slices(made: &mut Made) {
    let files = [
        (0, vec![empty_module()]),
        (0, example()),
        (0, whole('s', &tree(0x40, 200, 0))),
        (14, vec![other(0x01, b"")]),
        (15, vec![plain(0x34)]),
        (15, [whole('s', &tree(0x40, 200, 0)), vec![empty_module()]].concat()),
        (14, [whole('s', &tree(0x40, 200, 0)), vec![other(0x00, b"")]].concat()),
        (15, vec![]),
    ];
    for (number, fields) in files {
        let lengths = [0, 1, 4, 1_000, STEP_WORDS - 4, STEP_WORDS - 1, STEP_WORDS, STEP_WORDS + 1, STEP_WORDS + 4, WORDS_MOST];
        for records in lengths {
            let known = match number {
                _ if records < STEP_WORDS => Known::Number(3),
                0 => known(&fields),
                number => Known::Number(number),
            };
            made.put(bytes(&fields), known, records);
        }
    }
}

/// A file with so many bytes: expressions, then what takes two each.
fn long(length: usize) -> Vec<Field> {
    const VALUES: usize = 4_680;
    let tree = [vec![plain(0x20); VALUES], vec![plain(0x25); VALUES - 1]].concat();
    let mut fields = whole('e', &tree);
    let more = length - bytes(&fields).len();
    let last = fields.len() - 2;
    fields[last].body.extend(vec![b'a'; more]);
    fields
}

fn limits(made: &mut Made) {
    made.file(0, &long(FILE_SIZE));
    // its module has an item less than it says
    let mut longer = long(FILE_SIZE + 1);
    *longer.last_mut().unwrap() = record(0x5F, 2, 0, b"");
    made.file(14, &longer);
    made.file(0, &[other(0x70, &vec![0xFF; FILE_SIZE - 8]), empty_module()]);
    // 14 before any step, though the first field is 15; 3 before that
    let too_long = [bytes(&[vec![plain(0x34)], vec![other(0x70, &[0; 32_763]); 2]].concat()), vec![0; 2]].concat();
    assert!(too_long.len() == FILE_SIZE + 1);
    made.put(too_long.clone(), Known::Number(14), WORDS_MOST);
    made.put(too_long.clone(), Known::Number(3), STEP_WORDS - 1);
    made.put(too_long, Known::Number(3), 0);
    // 21,845 fields of three bytes; two less and a module
    made.file(15, &vec![plain(0x33); 21_845]);
    made.file(0, &[vec![other(0x99, b""); 21_843], vec![empty_module()]].concat());
    // levels: each record has the one before it
    made.file(0, &whole('e', &[small('e'), vec![plain(0x2A); 2_100]].concat()));
    made.file(0, &whole('e', &[small('e'), vec![plain(0x29); 300]].concat()));
    made.file(0, &whole('t', &[small('t'), vec![plain(0x12); 300]].concat()));
    made.file(0, &whole('s', &[small('s'), vec![plain(0x46); 300]].concat()));
    made.file(15, &[vec![plain(0x11)], vec![plain(0x15); 300], vec![empty_module()]].concat());
}

/// Long ones that the list has no room for.
fn more_limits(made: &mut Made) {
    for length in [FILE_SIZE - 1, FILE_SIZE, FILE_SIZE + 1, FILE_SIZE + 2, 70_000, 131_072, 200_000] {
        let number = if length > FILE_SIZE { 14 } else { 0 };
        made.file(number, &long(length));
        let text = length.min(65_000);
        let fields = [
            whole('i', &[record(0x54, 0, 0, &vec![b'a'; text - 12])]),
            vec![other(0xF0, &[0; 10]); (length - text) / 13],
        ];
        let mut file = bytes(&fields.concat());
        file.extend(vec![0; length - file.len()]);
        let number = if length > FILE_SIZE || (length - text) % 13 > 0 { 14 } else { 0 };
        made.bytes(number, &file);
        // zeros, skipped fields and records alone
        made.bytes(14, &vec![0; length]);
        made.bytes(14, &vec![0xFF; length]);
        let number = if length > FILE_SIZE || length % 3 > 0 { 14 } else { 15 };
        for tag in [0x33, 0x70] {
            made.bytes(number, &[tag, 0, 0].into_iter().cycle().take(length).collect::<Vec<u8>>());
        }
    }
    made.file(0, &whole('i', &[record(0x54, 0, 0, &vec![b'a'; FILE_SIZE - 12])]));
    made.file(14, &whole('i', &[record(0x54, 0, 0, &vec![b'a'; FILE_SIZE - 11])]));
    made.file(14, &[empty_module(), other(0x70, &vec![0xFF; FILE_SIZE - 7])]);
    made.file(15, &vec![other(0xA0, b""); 21_845]);
    made.file(15, &[vec![plain(0x33); 21_843], vec![empty_module()]].concat());
    for tag in COUNTED {
        for count in [2_047, 2_048, 2_049] {
            counted(made, if count > 2_048 { 14 } else { 0 }, tag, count, count);
        }
        counted(made, 15, tag, 2_047, 2_048);
        counted(made, 15, tag, 2_048, 2_047);
        counted(made, 0, tag, 255, 255);
        counted(made, 0, tag, 257, 257);
    }
    for (letter, tag) in [('e', 0x2A), ('e', 0x29), ('t', 0x12), ('s', 0x46)] {
        made.file(0, &whole(letter, &[small(letter), vec![plain(tag); 9_000]].concat()));
    }
    made.file(15, &[vec![plain(0x11)], vec![plain(0x15); 20_000], vec![empty_module()]].concat());
    // the most that can wait: 21,845 records less what they need
    made.file(15, &[vec![plain(0x33); 21_840], vec![plain(0x53)], vec![empty_module()]].concat());
    made.file(0, &[vec![empty_module()], vec![plain_error(0x61); 6_553]].concat());
    made.file(15, &[vec![empty_module()], vec![plain_error(0x61); 6_552], vec![plain_error(0x60)]].concat());
}
