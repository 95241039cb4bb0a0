//! Output slices of other lengths than the least, for Tokenise and for the whole operation.

use formats::{Given, FILE_SIZE, SCRIPT_LIMIT, TOKEN_SLICES};

/// Longer slices; the programs that replay have no more room.
const TOKENS_MOST: [usize; 3] = [17_000, 2_000, 20_000];
const FILE_MOST: usize = 70_000;

/// Scripts that are accepted, with and without errors, and one for each refusal but 3 and 8.
fn scripts() -> Vec<Vec<u8>> {
    let mut scripts: Vec<Vec<u8>> = [
        "var x:T;", "fn f(){c(w -1);}", "fn f", "use \"a\\q\" $", "asm{text}type T=*a;", "$\"", "", "€", "-", "type",
        "×var é:x²;", "a -bc;asm{",
    ]
    .map(|script| script.as_bytes().to_vec())
    .to_vec();
    scripts.push(b"\xC3".to_vec());
    scripts.push(vec![b';'; 2_049]);
    scripts.push(vec![b'$'; 256]);
    scripts.push(vec![b'+'; 256]);
    scripts.push([b"var p:", &[b'*'; 96][..]].concat());
    scripts
}

/// Refused with 1: long, so it comes with few lengths.
fn too_long() -> Vec<u8> {
    vec![b' '; SCRIPT_LIMIT + 1]
}

pub fn tokens(each: &mut dyn FnMut(Given)) {
    let mut tokenise = |script: &[u8], slices| each(Given::Tokenise { script: script.to_vec(), slices });
    for script in scripts() {
        for slice in 0..3 {
            for length in [0, TOKEN_SLICES[slice] - 1, TOKEN_SLICES[slice] + 1, TOKENS_MOST[slice]] {
                let mut slices = TOKEN_SLICES;
                slices[slice] = length;
                tokenise(&script, slices);
            }
        }
        tokenise(&script, [0; 3]);
        tokenise(&script, TOKENS_MOST);
    }
    tokenise(&too_long(), [0; 3]);
    tokenise(&too_long(), TOKENS_MOST);
}

pub fn files(each: &mut dyn FnMut(Given)) {
    let mut whole = |script: &[u8], file| each(Given::Whole { script: script.to_vec(), file });
    for script in scripts() {
        for file in [0, 1, FILE_SIZE - 1, FILE_SIZE + 1, FILE_MOST] {
            whole(&script, file);
        }
    }
    whole(&too_long(), FILE_SIZE - 1);
    whole(&too_long(), FILE_MOST);
}
