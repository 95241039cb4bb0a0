//! The scripts of tests/*.txt. Their format is in tests/README.md.

use formats::FILE_SIZE;

/// A script, and the length of the file slice that it is read with.
pub struct Case {
    pub script: Vec<u8>,
    pub file: usize,
}

/// The cases of all files, in the order of the files' names.
pub fn cases() -> Result<Vec<Case>, String> {
    let folder = std::fs::read_dir("tests").map_err(|e| format!("tests can't be read: {e}"))?;
    let mut paths: Vec<_> = folder.flatten().map(|entry| entry.path()).collect();
    paths.retain(|path| path.extension().is_some_and(|extension| extension == "txt"));
    paths.sort();
    let mut cases = Vec::new();
    for path in paths {
        let text = std::fs::read_to_string(&path).map_err(|e| format!("{} can't be read: {e}", path.display()))?;
        let mut script: Option<Vec<&str>> = None;
        for line in text.split('\n') {
            match &mut script {
                _ if line.starts_with("=== ") => script = Some(Vec::new()),
                Some(lines) if line == "---" => {
                    cases.push(case(&lines.join("\n"))?);
                    script = None;
                }
                Some(lines) => lines.push(line),
                None => (),
            }
        }
    }
    Ok(cases)
}

/// A script as it is written, with its escapes replaced.
fn case(text: &str) -> Result<Case, String> {
    let mut case = Case { script: Vec::new(), file: FILE_SIZE };
    let mut pieces = text.split("@{");
    case.script.extend(pieces.next().unwrap_or("").bytes());
    for piece in pieces {
        let wrong = || format!("the script has a wrong escape: {text}");
        let (escape, rest) = piece.split_once('}').ok_or_else(wrong)?;
        let (word, value) = escape.split_once(' ').ok_or_else(wrong)?;
        match word {
            "bytes" => {
                for byte in value.split(' ') {
                    case.script.push(u8::from_str_radix(byte, 16).map_err(|_| wrong())?);
                }
            }
            "slice" => case.file = value.parse().map_err(|_| wrong())?,
            _ => case.script.extend(value.repeat(word.parse().map_err(|_| wrong())?).bytes()),
        }
        case.script.extend(rest.bytes());
    }
    Ok(case)
}
