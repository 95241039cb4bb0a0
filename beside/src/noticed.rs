//! Wrong readers, and how many cases of the stored lists notice each.

use crate::lists::{self, Case};
use crate::wrong_steps;
use std::panic::{catch_unwind, set_hook, AssertUnwindSafe};

/// Prints how many cases of each list notice each wrong reader, of the parts named or of all; whether each is noticed.
pub fn run(parts: &[&str]) -> Result<bool, String> {
    let table = wrong_steps::table();
    if let Some(part) = parts.iter().find(|part| table.iter().all(|reader| reader.part != **part)) {
        return Err(format!("no wrong reader is of the part {part}"));
    }
    let lists = lists::stored()?;
    // a wrong reader may panic
    set_hook(Box::new(|_| ()));
    for (sort, cases) in &lists {
        if let Some(at) = cases.iter().position(|case| notices(case, None)) {
            return Err(format!("case {at} of the list of {sort} differs with no wrong step"));
        }
    }
    let sorts: String = lists.iter().map(|(sort, _)| format!("{sort:>10}")).collect();
    let (mut part, mut readers, mut unnoticed, mut least) = ("", 0, 0, usize::MAX);
    for (number, reader) in table.iter().enumerate() {
        if !parts.is_empty() && !parts.contains(&reader.part) {
            continue;
        }
        readers += 1;
        if reader.part != part {
            part = reader.part;
            println!("{sorts}  {part}");
        }
        let notice = |(sort, cases): &(&str, Vec<Case>)| {
            // the judge reads stored files, and nothing else does
            if (*sort == "stored") != reader.part.ends_with("of stored files") {
                return 0;
            }
            cases.iter().filter(|case| notices(case, Some(number))).count()
        };
        let counts: Vec<usize> = lists.iter().map(notice).collect();
        let columns: String = counts.iter().map(|count| format!("{count:>10}")).collect();
        let all = counts.iter().sum();
        println!("{columns}  {}{}", reader.name, if all == 0 { ": NOT NOTICED" } else { "" });
        unnoticed += (all == 0) as usize;
        least = least.min(all);
    }
    println!("{readers} wrong readers, {unnoticed} not noticed; {least} cases or more notice each");
    Ok(unnoticed == 0)
}

/// Whether a reader with a wrong step leaves a case in another way, panics or does not end.
fn notices((given, exit): &Case, step: Option<usize>) -> bool {
    wrong::marks::take_wrong_step(step);
    let got = catch_unwind(AssertUnwindSafe(|| wrong::operations::run(given)));
    got.ok().as_ref() != Some(exit)
}
