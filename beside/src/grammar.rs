//! Valid scripts as lists of lexemes, and the spaces between lexemes.

use crate::random::Random;

pub const NAMES: [&str; 28] = [
    "a", "b", "c", "x", "y", "T", "u16", "_", "_x", "A9", "width", "centre", "f1", "fns", "asm_",
    "asmx", "var1", "types", "use_", "Z_z0", "légende", "Maß", "où", "ÿ", "µ", "ª", "x²", "asmé",
];

pub const NUMBERS: [&str; 20] = [
    "0", "1", "7", "12", "007", "00", "65535", "0x1F", "0xabCD", "0x", "0x0", "0b101", "0b", "0b0",
    "-1", "-0", "-12", "-007", "18446744073709551616", "0b1111",
];

const SIZES: [&str; 9] =
    ["0", "1", "5", "00", "0x10", "0b11", "0x", "18446744073709551615", "0xFFFFFFFFFFFFFFFF"];

pub const STRINGS: [&str; 10] = [
    "\"\"", "\"s\"", "\"a b\"", "\"\\n\\r\\t\"", "\"é\"", "\"//\"", "\"}\"", "\"two\nlines\"",
    "\"\u{1F600}\"", "\"fn\"",
];

const ASSEMBLIES: [&str; 8] = [
    "asm{}", "asm { mov a, b }", "asm\n{x\ny}", "asm{é}", "asm\t{\"}", "asm{{}", "asm\u{A0}{x}", "asm \u{85}{ × }",
];

/// The levels of binary operators with the loosest first; a Minus swallows the space.
const LEVELS: [&[&str]; 6] = [&["|"], &["^"], &["&"], &["<<", ">>"], &["+", "- "], &["*"]];

/// Writes one script; no new nesting is begun once it has `budget` lexemes.
pub struct Grammar<'a> {
    random: &'a mut Random,
    budget: usize,
    out: Vec<String>,
}

/// The lexemes of a valid script.
pub fn module(random: &mut Random) -> Vec<String> {
    let budget = 4 + random.below(120);
    let items = 1 + random.below(4);
    let mut grammar = Grammar { random, budget, out: Vec::new() };
    for _ in 0..items {
        grammar.item();
    }
    grammar.out
}

impl Grammar<'_> {
    fn put(&mut self, lexeme: &str) {
        self.out.push(lexeme.to_owned());
    }

    fn put_one_of(&mut self, lexemes: &[&str]) {
        let lexeme = self.random.pick(lexemes);
        self.put(lexeme);
    }

    /// Whether to go on with a further part of a script, in so many of a hundred cases.
    fn more(&mut self, percent: usize) -> bool {
        self.out.len() < self.budget && self.random.chance(percent)
    }

    fn name(&mut self) {
        self.put_one_of(&NAMES);
    }

    /// A list with its brackets; now and then with a comma before the end.
    fn list(&mut self, open: &str, close: &str, item: fn(&mut Self)) {
        self.put(open);
        while self.more(55) {
            item(self);
            if !self.more(80) {
                if self.random.chance(25) {
                    self.put(",");
                }
                break;
            }
            self.put(",");
        }
        self.put(close);
    }

    fn item(&mut self) {
        match self.random.below(8) {
            0..=2 => self.function(),
            3 => self.external(),
            4 => self.alias(),
            5 => {
                self.put("use");
                self.put_one_of(&STRINGS);
                self.put(";");
            }
            6 => self.variable(),
            _ => self.put_one_of(&ASSEMBLIES),
        }
    }

    fn head(&mut self) {
        self.put("fn");
        self.name();
        self.list("(", ")", Self::typed);
        if self.random.chance(40) {
            self.put("->");
            self.ty();
        }
    }

    fn function(&mut self) {
        self.head();
        self.block();
    }

    fn external(&mut self) {
        self.put("extern");
        self.head();
        self.put(";");
    }

    fn alias(&mut self) {
        while self.random.chance(35) {
            self.put_one_of(&["distinct", "internal"]);
        }
        self.put("type");
        self.name();
        self.put("=");
        self.ty();
        self.put(";");
    }

    fn typed(&mut self) {
        self.name();
        self.put(":");
        self.ty();
    }

    fn variable(&mut self) {
        self.put("var");
        self.typed();
        match self.random.below(3) {
            0 => (),
            1 => {
                self.put("=");
                self.expression();
            }
            _ => {
                self.put("<-");
                self.compound();
            }
        }
        self.put(";");
    }

    fn compound(&mut self) {
        self.put("#");
        if self.random.chance(50) {
            self.list("[", "]", Self::expression);
        } else {
            self.list("{", "}", Self::field);
        }
    }

    fn field(&mut self) {
        self.name();
        self.put("=");
        self.expression();
    }

    fn ty(&mut self) {
        while self.more(30) {
            if self.random.chance(60) {
                self.put("*");
            } else {
                self.put("[");
                self.put_one_of(&SIZES);
                self.put("]");
            }
        }
        if self.more(20) {
            self.put("struct");
            self.list("{", "}", Self::typed);
        } else {
            self.name();
        }
    }

    fn block(&mut self) {
        self.put("{");
        while self.more(70) {
            self.statement();
        }
        self.put("}");
    }

    fn statement(&mut self) {
        match self.random.below(16) {
            0 | 1 => self.variable(),
            2 | 3 => {
                self.put("return");
                if self.random.chance(60) {
                    self.expression();
                }
                self.put(";");
            }
            4 => self.assignment(),
            5 => self.compound_assignment(),
            6 => self.block(),
            7..=11 => self.body(),
            12 => self.put_one_of(&ASSEMBLIES),
            _ => {
                self.expression();
                self.put(";");
            }
        }
    }

    fn assignment(&mut self) {
        self.expression();
        self.put("=");
        self.expression();
        self.put(";");
    }

    fn compound_assignment(&mut self) {
        self.expression();
        self.put("<-");
        self.compound();
        self.put(";");
    }

    /// A statement that can't be taken for the rest of an expression before it.
    fn body(&mut self) {
        let choice = if self.more(60) { self.random.below(6) } else { 6 };
        match choice {
            0 => {
                self.put("loop");
                self.body();
            }
            1 => {
                self.put("while");
                self.expression();
                self.body();
            }
            2 | 3 => {
                self.put("if");
                self.expression();
                self.body();
                if self.random.chance(50) {
                    self.put("else");
                    self.body();
                }
            }
            4 => self.block(),
            5 => {
                self.name();
                self.list("(", ")", Self::expression);
                self.put(";");
            }
            _ => {
                self.put("break");
                self.put(";");
            }
        }
    }

    fn expression(&mut self) {
        self.comparison();
        if self.more(10) {
            self.put("&&");
            self.comparison();
        }
    }

    fn comparison(&mut self) {
        self.binary(0);
        if self.more(12) {
            self.put_one_of(&["==", "<", "<=", ">", ">="]);
            self.binary(0);
        }
    }

    fn binary(&mut self, level: usize) {
        let Some(operators) = LEVELS.get(level) else { return self.cast() };
        self.binary(level + 1);
        while self.more(8) {
            self.put_one_of(operators);
            self.binary(level + 1);
        }
    }

    fn cast(&mut self) {
        self.unary();
        while self.more(6) {
            self.put("as");
            self.ty();
        }
    }

    fn unary(&mut self) {
        while self.more(12) {
            self.put_one_of(&["&", "*", "~", "!"]);
        }
        if self.more(6) {
            self.put("sizeof");
            self.put("(");
            self.ty();
            self.put(")");
        } else {
            self.suffixed();
        }
        if self.more(15) {
            self.list("(", ")", Self::expression);
        }
    }

    fn suffixed(&mut self) {
        self.atom();
        while self.more(20) {
            match self.random.below(3) {
                0 => {
                    self.put(".");
                    self.name();
                }
                1 => self.put(".*"),
                _ => {
                    self.put("[");
                    self.expression();
                    self.put("]");
                }
            }
        }
    }

    fn atom(&mut self) {
        if self.more(12) {
            self.put("(");
            self.expression();
            self.put(")");
            return;
        }
        match self.random.below(10) {
            0..=4 => self.name(),
            5..=7 => self.put_one_of(&NUMBERS),
            8 => self.put_one_of(&STRINGS),
            _ => self.put_one_of(&["true", "false"]),
        }
    }
}

/// Whether two lexemes stay two with nothing between them.
fn may_touch(before: &str, after: &str) -> bool {
    let last = before.chars().last().unwrap_or(' ');
    let first = after.chars().next().unwrap_or(' ');
    "(){}[];,:~!|^+#\" ".contains(last)
        || "(){}[];,:\"|^+ ".contains(first)
        || (before == "." && first.is_alphabetic())
        || (first == '.' && last.is_alphanumeric())
}

/// The lexemes as a script, with spaces, newlines and comments between them.
pub fn joined(random: &mut Random, lexemes: &[String]) -> String {
    let mut script = String::new();
    for (at, lexeme) in lexemes.iter().enumerate() {
        if at > 0 {
            script.push_str(gap(random, &lexemes[at - 1], lexeme));
        }
        script.push_str(lexeme);
    }
    script
}

fn gap(random: &mut Random, before: &str, after: &str) -> &'static str {
    match random.below(40) {
        0 => "\n",
        1 => "\t \r\n",
        2 => " // a note, é\n",
        3 => "\u{B}\u{C}",
        4 => "\u{A0}",
        5 => "\u{85}\u{A0}",
        6..=12 => " ",
        _ if may_touch(before, after) => "",
        _ => " ",
    }
}
