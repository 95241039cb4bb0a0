//! The entry of libFuzzer: each input is a script, given to the library and to the Rust.

// parts of these files are for other commands
#![allow(dead_code)]

mod ask;
mod linked;
mod random;
mod show;
mod tree_files;

use formats::FILE_SIZE;
use std::sync::Once;

static START: Once = Once::new();

#[no_mangle]
pub extern "C" fn LLVMFuzzerTestOneInput(data: *const u8, size: usize) -> i32 {
    START.call_once(ask::hide_expected_panics);
    // an empty input may have no address
    let script = if size == 0 { &[] } else { unsafe { std::slice::from_raw_parts(data, size) } };
    let expected = linked::expected(script, FILE_SIZE);
    let got = linked::call(script, FILE_SIZE);
    if expected != got {
        println!("differs: {}", show::script(script));
        println!("the Rust: {:#?}", linked::lines(&expected));
        println!("the library: {:#?}", linked::lines(&got));
        std::process::abort();
    }
    0
}
