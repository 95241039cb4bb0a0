//! The table of wrong readers, which stands in wrong_steps.txt.

pub struct Wrong {
    pub part: &'static str,
    pub name: &'static str,
    pub steps: Vec<Step>,
}

pub struct Step {
    pub file: &'static str,
    /// what is found, in one place
    pub old: Vec<&'static str>,
    /// what is put
    pub new: Vec<&'static str>,
    /// whether it is an expression that stands instead of what is found
    pub instead: bool,
}

pub fn table() -> Vec<Wrong> {
    let mut table: Vec<Wrong> = Vec::new();
    let (mut part, mut file) = ("", "");
    for line in include_str!("wrong_steps.txt").lines() {
        let (sign, text) = line.split_once(' ').unwrap_or((line, ""));
        let reader = table.last_mut();
        match sign {
            "" | "#" => (),
            "==" => part = text,
            "@" => file = text,
            "=" => table.push(Wrong { part, name: text, steps: Vec::new() }),
            "-" => reader.expect("a step has a reader").found(file, text),
            "+" | "!" => {
                let step = reader.and_then(|reader| reader.steps.last_mut()).expect("something is found first");
                step.new.push(text);
                step.instead = sign == "+";
            }
            _ => panic!("no line of the table begins with {sign}"),
        }
    }
    table
}

impl Wrong {
    /// A line more of what is found, or the first of another step.
    fn found(&mut self, file: &'static str, line: &'static str) {
        match self.steps.last_mut() {
            Some(step) if step.new.is_empty() => step.old.push(line),
            _ => self.steps.push(Step { file, old: vec![line], new: Vec::new(), instead: false }),
        }
    }
}
