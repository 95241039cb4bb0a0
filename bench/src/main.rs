//! Times the whole operation (`dn_read`) beside the Rust's `tokenize` and `parse_module`, and the loading of its
//! tree file (`dn_load`) beside the operation, in one process.
//!
//! A call of `dn_read` clears its own token, error and text arrays (86,016 bytes) and what stands after the
//! file in the slice (65,536 bytes in all). The Rust makes its tokens and its tree on the heap and drops them.
//! A call of `dn_load` clears an array of its own (21,845 bytes) and what stands after the steps in the slice
//! (349,520 bytes in all). `load us` is its time where the slice is used again, `first us` where it was full of other
//! words. The line after the table is the time of a fill of that whole slice.
//!
//! The last lines are the time of tokenizing the page and the page of French names, beside the Rust's `tokenize`. Where
//! the program is linked with another version of the library (`cfg(before)`), they have its times too, taken in turn
//! with ours; a version that refuses the page is left out.

use plain::parser::Parser;
use plain::source::SourceInputType;
use plain::tokenizer::tokenize;
use std::hint::black_box;
use std::time::Instant;

type Read = unsafe extern "C" fn(*const u8, usize, *mut u8, usize, *mut usize) -> u32;

extern "C" {
    fn dn_read(script: *const u8, script_len: usize, file: *mut u8, file_len: usize, bytes: *mut usize) -> u32;
    #[cfg(before)]
    fn before_dn_read(script: *const u8, script_len: usize, file: *mut u8, file_len: usize, bytes: *mut usize) -> u32;
    fn dn_load(file: *const u8, file_len: usize, records: *mut u32, records_len: usize, count: *mut usize) -> u32;
}

/// The lengths of the two slices: bytes of a file, words of its steps.
const FILE: usize = 65536;
const RECORDS: usize = 87380;

const SAMPLES: usize = 101;
/// Calls on a slice that is filled before each.
const FIRST: usize = 1001;
/// A sample calls so often that it takes this long, in nanoseconds.
const SAMPLE: f64 = 2e6;

/// The versions of the library, ours first.
const VERSIONS: &[(&str, Read)] = &[
    ("ours", dn_read),
    #[cfg(before)]
    ("before", before_dn_read),
];

/// The whole operation: the number and the count of bytes.
fn read(with: Read, script: &str, file: &mut [u8]) -> (u32, usize) {
    let mut bytes = 0;
    let number = unsafe { with(script.as_ptr(), script.len(), file.as_mut_ptr(), file.len(), &mut bytes) };
    (number, bytes)
}

fn ours(script: &str, file: &mut [u8]) -> (u32, usize) {
    read(dn_read, script, file)
}

/// Loading a tree file: the number and the count of steps.
fn load(file: &[u8], records: &mut [u32]) -> (u32, usize) {
    let mut count = 0;
    let number = unsafe { dn_load(file.as_ptr(), file.len(), records.as_mut_ptr(), records.len(), &mut count) };
    (number, count)
}

/// The Rust's steps: how many token errors and how many errors it reports.
fn theirs(script: &str) -> (usize, usize) {
    let (tokens, errors) = tokenize(script, SourceInputType::buffer());
    let module = Parser::new(tokens.into_iter().peekable()).parse_module();
    let counts = (errors.len(), module.errors().len());
    black_box(module.ignore_errors());
    counts
}

/// The median time of each of these calls, in nanoseconds. Their samples are taken in turn.
fn medians(calls: &mut [Box<dyn FnMut() + '_>]) -> Vec<f64> {
    let mut counts = Vec::new();
    for call in calls.iter_mut() {
        let start = Instant::now();
        for _ in 0..20 {
            call();
        }
        let once = start.elapsed().as_nanos() as f64 / 20.0;
        counts.push((SAMPLE / once).ceil() as usize);
    }
    let mut times = vec![Vec::new(); calls.len()];
    for _ in 0..SAMPLES {
        for ((call, count), times) in calls.iter_mut().zip(&counts).zip(&mut times) {
            let start = Instant::now();
            for _ in 0..*count {
                call();
            }
            times.push(start.elapsed().as_nanos() as f64 / *count as f64);
        }
    }
    times
        .into_iter()
        .map(|mut times| {
            times.sort_by(f64::total_cmp);
            times[SAMPLES / 2]
        })
        .collect()
}

fn median<'a>(call: impl FnMut() + 'a) -> f64 {
    medians(&mut [Box::new(call)])[0]
}

/// The median time of loading into a slice that is full of other words, in nanoseconds.
fn median_first(file: &[u8], records: &mut [u32]) -> f64 {
    let mut times: Vec<f64> = (0..FIRST)
        .map(|_| {
            records.fill(u32::MAX);
            let start = Instant::now();
            black_box(load(black_box(file), records));
            start.elapsed().as_nanos() as f64
        })
        .collect();
    times.sort_by(f64::total_cmp);
    times[FIRST / 2]
}

fn compare(name: &str, script: &str) {
    let mut file = vec![0; FILE];
    let mut records = vec![0; RECORDS];
    let (number, bytes) = ours(script, &mut file);
    assert_eq!((number, theirs(script)), (0, (0, 0)), "{name}: the script is good");
    let (number, steps) = load(&file[..bytes], &mut records);
    assert_eq!(number, 0, "{name}: its file is loaded");
    let tokens = tokenize(script, SourceInputType::buffer()).0.len();
    let mine = median(|| {
        black_box(ours(black_box(script), &mut file));
    });
    let rust = median(|| {
        black_box(theirs(black_box(script)));
    });
    let loading = median(|| {
        black_box(load(black_box(&file[..bytes]), &mut records));
    });
    let first = median_first(&file[..bytes], &mut records);
    println!(
        "{name:<16} {:>6} {tokens:>6} {:>8.1} {:>8.1} {:>6.2} | {bytes:>6} {steps:>6} {:>8.1} {:>9.2} {:>8.1}",
        script.len(),
        mine / 1e3,
        rust / 1e3,
        mine / rust,
        loading / 1e3,
        loading / mine,
        first / 1e3
    );
}

/// The time of clearing a whole slice for steps.
fn clearing() {
    let mut records = vec![0u32; RECORDS];
    let time = median(|| black_box(&mut records[..]).fill(0));
    println!("clearing {} bytes: {:.1} us", RECORDS * 4, time / 1e3);
}

/// A character that is refused wherever a token could start.
const REFUSED: &str = "\u{20ac}";

/// The time of tokenizing a script: that of the operation on the script with a character after it that is refused, less
/// that on the character alone. Both clear all slices, and neither parses anything.
fn tokenizing(name: &str, script: &str) {
    let refused = script.to_owned() + REFUSED;
    let reads = |version: &&(&str, Read)| read(version.1, script, &mut vec![0; FILE]).0 == 0;
    let versions: Vec<_> = VERSIONS.iter().filter(reads).collect();
    let mut files = vec![vec![0; FILE]; versions.len() * 2];
    let mut calls: Vec<Box<dyn FnMut()>> = vec![Box::new(|| {
        black_box(tokenize(black_box(script), SourceInputType::buffer()));
    })];
    for (index, file) in files.iter_mut().enumerate() {
        let with = versions[index / 2].1;
        let script = [&refused, REFUSED][index % 2];
        assert_eq!(read(with, script, file), (4, 0), "{name}: the character is refused");
        calls.push(Box::new(move || {
            black_box(read(with, black_box(script), file));
        }));
    }
    let times = medians(&mut calls);
    print!("tokenizing {name}: Rust {:.1} us", times[0] / 1e3);
    for ((version, _), times) in versions.into_iter().zip(times[1..].chunks(2)) {
        print!(", {version} {:.1} us", (times[0] - times[1]) / 1e3);
    }
    println!();
}

/// Functions of sixty tokens by a pattern, as many as so many tokens allow.
fn page(tokens: usize, function: fn(usize) -> String) -> String {
    (0..tokens / 60).map(function).collect()
}

fn english(number: usize) -> String {
    format!(
        "// places the caption below the plate {number}, between the rules, as wide as the margins of the page leave room for\n\
         fn place_caption_{number}(width_of_plate: Width, left_margin: Width) -> Width {{\n\
         \x20   var caption_width: Width = width_of_plate - left_margin; // what is left of it\n\
         \x20   while caption_width > {number} && !(measured_again == false) {{\n\
         \x20       caption_width = caption_width - measures[{number}].width_between_rules;\n\
         \x20   }}\n\
         \x20   return centre(caption_width, left_margin + gutter_of_the_page * 12);\n\
         }}\n\n"
    )
}

/// The same with French names: of each some letters have two bytes.
fn french(number: usize) -> String {
    format!(
        "// place la légende sous la planche {number}, entre les filets, aussi large que le papier l'a prévu\n\
         fn légende_{number}(côté_gravé: Pièce, marge_reliée: Pièce) -> Pièce {{\n\
         \x20   var légende_à_côté: Pièce = côté_gravé - marge_reliée; // où elle finit\n\
         \x20   while légende_à_côté > {number} && !(déjà_mesurée == false) {{\n\
         \x20       légende_à_côté = légende_à_côté - siècles[{number}].où_il_était;\n\
         \x20   }}\n\
         \x20   return centrée(légende_à_côté, marge_reliée + gouttière * 12);\n\
         }}\n\n"
    )
}

fn main() {
    println!(
        "{:<16} {:>6} {:>6} {:>8} {:>8} {:>6} | {:>6} {:>6} {:>8} {:>9} {:>8}",
        "script", "bytes", "tokens", "ours us", "Rust us", "ratio", "file", "steps", "load us", "load/ours", "first us"
    );
    for (name, tokens) in [("page", 2000), ("half a page", 1000), ("quarter page", 500)] {
        compare(name, &page(tokens, english));
    }
    compare("French page", &page(2000, french));
    compare("95 stars", &format!("var p: {}T;", "*".repeat(95)));
    for count in [125, 250, 500, 1000] {
        compare(&format!("{count} operators"), &format!("fn f(){{{}a;}}", "a+".repeat(count)));
    }
    clearing();
    for _ in 0..3 {
        tokenizing("the page", &page(2000, english));
        tokenizing("the French page", &page(2000, french));
    }
}
