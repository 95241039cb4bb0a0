//! Scripts written out: those of docs/FORMAT.md, and those at the limits.

/// Scripts of docs/FORMAT.md, and of rules that are easily misread.
pub const PAPER: &[&str] = &[
    // FORMAT.md: scripts, numbers, strings, assembly
    "var x: T;",
    "fn f (){c(w -1);}",
    "fn f (){c(w);}",
    "fn f",
    "fn g (){f()();}",
    "a -bc",
    "0x",
    "0b2",
    "\"a\\\"",
    "-",
    "type",
    "",
    "use",
    "var x:T=a.",
    "\"\\\\\"",
    "00",
    "007",
    "-0",
    "-0x1",
    "-0b1",
    "var x:[-0]T;",
    "var x:[0]T;",
    "\"\\r\\n\\t\"",
    "\"\\",
    "asm",
    "asm x",
    "asm {",
    "asm { a } b",
    "fn f(){centre(width -12);}",
    // places, kept names, order of reports, characters above 127
    "var x:[",
    "var x:[5",
    "var x:[-1",
    "fn f(){a.1;}",
    "var x:T=(+);",
    "type type",
    "use use",
    "var 1 T;",
    "var 1:T;",
    "fn f(1:T){}",
    "type T=struct{1:T};",
    "fn f(){var 1:T;}",
    "fn f(1)->+{+;}",
    "extern fn f(1)->T+",
    "extern fn f(1)->T;",
    "extern fn f(+)->T;",
    "fn f(+)->struct{+}{+}",
    "1é",
    "-é",
    "-é a",
    "aé",
    "asm é",
    "é",
    "\"é\"",
    "// é",
    "-\na",
    // losses without an error, names with accents, picas, what demand 3 strikes, remarks
    "left -dx",
    "fn f(){a = left -dx;}",
    "légende",
    "Maß",
    "var a:T=légende;",
    "3p6",
    "-3p6",
    "3p12",
    "0x3p6",
    "asm { not closed",
    "distinct distinct internal type T = a;",
    "internal distinct type T = (a);",
    "fn f(){c(a,b,);}",
    "fn f(){a;} // a remark",
    "// only a remark\n",
    "\u{85}",
    "\u{A0}a",
    "\u{100}",
    "€",
    "1€",
    "-€ a",
    "asm €",
    "\"€\" // €",
    "var légende: Maß;",
    "fn été(où: ÿ) { return x² * µ; }",
    "²x",
    "x×y",
    "asm\u{A0}\u{85}{ é }",
    "asmé {}",
    "1é 0xé 0bé",
    "é\n  é é;",
];

/// Each construct of the parser, whole and with parts that are wrong or missing.
pub const CONSTRUCTS: &[&str] = &[
    // words and numbers
    "FN f(){}",
    "Var x:T;",
    "var x:T=TRUE;",
    "use \"a\"; USE \"a\";",
    "ASM{a}",
    "var x:T=0X1;",
    "var x:[0XF]T;",
    "0X",
    "0B1",
    "0xFf 0b10 010 -010",
    "\u{80}",
    "a\u{80}",
    "asm \u{80}",
    "1\u{80}",
    "\u{7F}",
    "a\u{7F}b",
    "\"\u{80}\" \u{FF}",
    "\u{100}a",
    "a\u{100}",
    "asm \u{100}",
    "asm\u{100}{}",
    "1\u{100}",
    "-\u{100}",
    "a -\u{100}\u{100}",
    // words and white space above 127
    "var légende:*Maß=où+x²*µ;",
    "fn é(ª:ÿ,º:[2]Ø)->struct{ß:Þ}{return î;}",
    "var é:struct{à:T,ç:*U}<-#{ü=1,ö=ï};",
    "var é:T=a.ñ.*[ö](ø,õ)as Å;",
    "distinct type Ä=Ö;internal type É=È;use \"é\";extern fn ÀÖØöøÿ();",
    "fn f(){é=è;ê<-#[ë];loop î;while û ù();if ý á();else ã();}",
    "var\u{A0}x\u{85}:\u{A0}\u{A0}T\u{A0};",
    "asm\u{A0}x",
    "asm\u{A0}",
    "asm\u{85}\n\u{A0} {",
    "asm×{}",
    "asm²{}",
    "asm ²{}",
    "asm é{}",
    "asm{}é;",
    "fné f(){}",
    "fn²",
    "éfn",
    "Fné VAR",
    "fn f(){if a b;élse c;}",
    "var é²:T;var ²é:T;",
    "1²",
    "-²",
    "-1²",
    "0x²",
    "0bß",
    "var x:[²]T;",
    "é-1",
    "é -é é",
    "é--é",
    "-\u{A0}é",
    "-×é",
    "a -²b",
    "0xaéF 0b1é1",
    "// a\u{85}é\n«»",
    "->é",
    "é->",
    "x·y«z»",
    "×÷",
    "\"é\"é\"²\"",
    "\"\\é\"é",
    "\"é",
    "//é\u{85}é\né",
    "/é/×",
    "é\n\u{A0}é\u{85}é ×\r§",
    "ééé $ é × é",
    "a.é.²",
    "a.×",
    "(é<é)",
    "é:é,é;é=é",
    "ªªª",
    "_é é_ _²",
    "é1 1é é0x1",
    "é€",
    "é\u{301}",
    "×€",
    // items
    "extern fn f();",
    "extern fn f(){}",
    "extern f();",
    "fn f(a:T)->*T{return a;}",
    "fn 1(){}",
    "fn f){}",
    "fn f(a T){}",
    "fn f(1 T){}",
    "fn f(a:T b:T){}",
    "fn f(a:+){}",
    "fn f()->{}",
    "fn f()->+{}",
    "fn f() a;",
    "fn f(){a;",
    "type T=a;",
    "type T a;",
    "type T=+;",
    "type T=a",
    "type 1=a;",
    "distinct T=a;",
    "internal type T=a;distinct type T=a;",
    "use a;",
    "use a",
    "use \"a\"",
    "use \"a\" \"b\";",
    "var x;",
    "var x T;",
    "var 1 T;",
    "var 1:+;",
    "var 1:T=+;",
    "var 1:T=a.1;",
    "var 1:T=(a;",
    "var 1:T=(+;",
    "var 1:T=;",
    "var 1:T=",
    "var 1:T<-;",
    "var 1:T<-#;",
    "var 1:T<-#",
    "var x:T=a",
    "var x:T<-#[a",
    // statements
    "fn f(){return;}",
    "fn f(){return}",
    "fn f(){return a}",
    "fn f(){return +;}",
    "fn f(){break}",
    "fn f(){break;break;}",
    "fn f(){loop}",
    "fn f(){loop",
    "fn f(){while a",
    "fn f(){if a b;else",
    "fn f(){loop{a;b;}}",
    "fn f(){loop +;a;}",
    "fn f(){while a b;}",
    "fn f(){while(a.1)b.1;}",
    "fn f(){while + b;}",
    "fn f(){if a b;else c;}",
    "fn f(){if a if b c;else d;}",
    "fn f(){if(a.1)b.1;}",
    "fn f(){if(a.1)b.1;else c.1;}",
    "fn f(){if a +;else b;}",
    "fn f(){else a;}",
    "fn f(){a=b;a.b=c;a[b]=c;a.*=b;}",
    "fn f(){a=;}",
    "fn f(){a=b}",
    "fn f(){a=b=c;}",
    "fn f(){a.1=b;}",
    "fn f(){a.1;b;}",
    "fn f(){a<-#[b];}",
    "fn f(){a<-#{b=c};}",
    "fn f(){a<-b;}",
    "fn f(){a<-#(b);}",
    "fn f(){a<-#[b]}",
    "fn f(){asm{a}asm{b};}",
    "fn f(){var a:T=b;var c:T<-#[d];var e:T;}",
    "fn f(){var 1 T;a;}",
    "fn f(){{}{a;}}",
    "fn f(){a b;c;}",
    "fn f(){var x:T=(+;}",
    // operators
    "var x:T=a&&b;",
    "var x:T=a&&b&&c;",
    "fn f(){a&&b&&c;}",
    "fn f(){return a&&b&&c&&d;}",
    "var x:T=(a==b)&&(a<b);",
    "var x:T=(a<=b)&&(a>=b);",
    "var x:T=a==b==c;",
    "var x:T=a<b<c;",
    "fn f(){a<=b>=c;}",
    "var x:T=a>b&&c==d;",
    "var x:T=a|b^c&d<<e+f*g;",
    "var x:T=a*b+c<<d&e^f|g;",
    "var x:T=a+b- c+d;",
    "var x:T=a<<b>>c;",
    "var x:T=a&b&c^d^e|f|g;",
    "var x:T=a+b.1;",
    "var x:T=a.1+b.1;",
    "fn f(){a|b.1;}",
    "fn f(){a==b.1&&c.1;}",
    "var x:T=a as T as *U;",
    "var x:T=!a as T;",
    "var x:T=*a as T+~b as U;",
    "var x:T=!~*&a;",
    "var x:T=!!a;",
    "var x:T=~f(a);",
    // calls and suffixes
    "fn f(){g()();}",
    "fn f(){g(a)(b)(c);}",
    "var x:T=f(a)(b);",
    "var x:T=f(a).b;",
    "var x:T=f(a)[b];",
    "var x:T=a.b(c);",
    "var x:T=(f)(a);",
    "var x:T=f(a,,b);",
    "var x:T=f(,a);",
    "var x:T=f(a,b,,);",
    "var x:T=f(a b c);",
    "var x:T=f(+,a);",
    "var x:T=f(a.1,b);",
    "var x:T=f(g(",
    "fn f(){g(h(",
    "var x:T=sizeof(T);",
    "var x:T=sizeof(*T)+sizeof([2]T);",
    "var x:T=sizeof T;",
    "var x:T=sizeof(T;",
    "var x:T=sizeof(T)(a);",
    "var x:T=sizeof(T).a;",
    "var x:T=a.b.*.c[d].e;",
    "var x:T=a.1.b;",
    "var x:T=a.1[b];",
    "var x:T=a.1.*;",
    "fn f(){a.1.b;c;}",
    "fn f(){a.1[b];c;}",
    "var x:T=a[b;",
    "var x:T=a[b.1];",
    "var x:T=a[+];",
    "var x:T=(a;",
    "var x:T=(a.1);",
    "var x:T=(a b);",
    "var x:T=((+));",
    "var x:T=\"a\"[b];",
    "var x:T=true&&false;",
    // types and lists
    "var x:**T;",
    "var x:[2][0b11]*[0xF]T;",
    "var x:[2 T;",
    "var x:[2)T;",
    "var x:[T]T;",
    "var x:fn;",
    "var x:var;",
    "var x:type;",
    "var x:internal;",
    "var x:asm{};",
    "var x:struct{};",
    "var x:struct{a:T,b:*U,};",
    "var x:struct{a:T b:U};",
    "var x:struct{a:T)b:U};",
    "var x:struct{a:T};)",
    "var x:struct{1:T,a T,b:+};",
    "var x:struct(a:T};",
    "var x:struct{a:struct{1:T}};",
    "var x:struct{",
    "var x:T<-#[a,b,];",
    "var x:T<-#[a,,b];",
    "var x:T<-#[a b];",
    "var x:T<-#[+];",
    "var x:T<-#{a=b,c=d,};",
    "var x:T<-#{a b};",
    "var x:T<-#{1=b};",
    "var x:T<-#{a=+,b=c};",
    "var x:T<-#{a=b)c=d};",
    "var x:T<-#{a=b;",
    "var x:T<-#{",
];

fn times(part: &str, count: usize) -> String {
    part.repeat(count)
}

/// Gives the scripts of a part to a function.
type Part = fn(&mut dyn FnMut(&[u8]));

/// The scripts at the limits of docs/FORMAT.md: one short, exact, one over.
pub const LIMITS: [(&str, Part); 9] = [
    ("limit-length", script_length),
    ("limit-places", places),
    ("limit-tokens", token_count),
    ("limit-errors", token_errors),
    ("limit-entries", full_entries),
    ("limit-losses", losses),
    ("limit-nesting", nesting),
    ("limit-sizes", array_sizes),
    ("limit-counts", counts),
];

pub fn boundary(each: &mut dyn FnMut(&[u8])) {
    for (_, part) in LIMITS {
        part(each);
    }
}

fn script_length(each: &mut dyn FnMut(&[u8])) {
    for length in [16_383, 16_384, 16_385] {
        each(times(" ", length).as_bytes());
        each(format!("{};", times("a", length - 1)).as_bytes());
    }
    // both too long and not UTF-8
    each(&[b"\xC3", times(" ", 16_384).as_bytes()].concat());
    each(&[b"var x:T;//\xFF", times(" ", 16_384).as_bytes()].concat());
    each(times("é", 8_192).as_bytes());
    each(format!("{}€", times(" ", 16_381)).as_bytes());
    for length in [16_384, 16_385] {
        each(format!("var x:T;//{}", times("c", length - 10)).as_bytes());
        each(format!("use \"{}\";", times("s", length - 7)).as_bytes());
        each(format!("asm{{{}", times("t", length - 4)).as_bytes());
        each(format!("{}é", times(" ", length - 2)).as_bytes());
        each(&[times(" ", length - 1).as_bytes(), b"\xC3"].concat());
        each(format!("var x:T={}1;", times("0", length - 10)).as_bytes());
    }
}

fn places(each: &mut dyn FnMut(&[u8])) {
    each(format!("{}a", times("\n", 16_383)).as_bytes());
    each(format!("{}a", times(" ", 16_383)).as_bytes());
    each(format!("//{}\n-\na \"{}\" $", times("é", 300), times("é", 300)).as_bytes());
    each(format!("{} a {} × b", times("é", 300), times("\u{A0}", 300)).as_bytes());
    for count in [254, 255, 256, 257] {
        each(format!("{}{}a", times("\n", count), times(" ", count)).as_bytes());
        each(format!("use \"{}\";", times("s", count)).as_bytes());
    }
}

fn token_count(each: &mut dyn FnMut(&[u8])) {
    // one error for each token: 12 comes first
    each(times(";", 2_048).as_bytes());
    // no error: 8 tokens and two for each sum
    for sums in [1_019, 1_020] {
        each(format!("var x:T=!a{};", times("+a", sums)).as_bytes());
    }
    each(format!("var x:T=!a{};;", times("+a", 1_020)).as_bytes());
    each(format!("var x:T=f({});", times("a,", 1_020)).as_bytes());
    each(format!("var x:T=f({});", times("a,", 1_019)).as_bytes());
    each(format!("fn f(){{{}}}{}", times("a;", 1_020), "use;").as_bytes());
    each(format!("{}use;", times("asm{}", 2_045)).as_bytes());
    each(format!("{}use;", times("asm{}", 2_046)).as_bytes());
    each(format!("{}use;", times("asm{}", 2_047)).as_bytes());
    each(format!("fn f({}){{}}", times("a:T,", 510)).as_bytes());
    // one more token, in each way that one is pushed
    let full = format!("asm{{}}{}", times(";", 2_047));
    for last in [
        "-", "aé", "asm é", "1é", "+é", "\"é\"", "- ", "->", "", " ", "é", "$", "asm", "\"", "\"\\q\"", "\"a",
        "//", "//é", "/", "a", "1", "\"\"", "asm{", "-1", "<<", ".*", "-é", "fn", "asm x", "0x",
        "€", "a€", "é€", "1€", "+€", "asm €", "asm\u{A0}{", "-€", "\u{A0}", "\u{A0}é", "×", "×é", "×€", "é×",
    ] {
        each(format!("{full}{last}").as_bytes());
    }
}

fn token_errors(each: &mut dyn FnMut(&[u8])) {
    for count in [254, 255, 256] {
        each(format!("{}var x:T;", times("$", count)).as_bytes());
        each(format!("use \"{}\";", times("\\q", count)).as_bytes());
        each(format!("use \"{}", times("\\q", count - 1)).as_bytes());
        each(format!("{}var x:T;", times("asm x ", count)).as_bytes());
        each(format!("{}var x:T;", times("×", count)).as_bytes());
    }
    let full = times("$", 255);
    for last in [
        "é", "asm é", "-", "asm", "$", "\"\\é\"", "\"", "\"\\", "\"\\n\"", "asm x", "asm{", "a", "aé", "\"\\q", "-é",
        "€", "a€", "×", "²", "é×", "asm €", "asm×", "\u{85}×", "\u{80}", "\u{FF}",
    ] {
        each(format!("{full}{last}").as_bytes());
    }
    // both limits at once
    let tokens = format!("asm{{}}{}", times(";", 2_047));
    for last in ["\"\\q\"", "$", ";", "-", "é", "\"\\q", "\"", "×", "€", "é€"] {
        each(format!("{full}{tokens}{last}").as_bytes());
    }
}

fn full_entries(each: &mut dyn FnMut(&[u8])) {
    for count in [254, 255, 256] {
        each(times("+", count).as_bytes());
        // dropped by the call and by the struct type
        each(format!("var x:T=f({});", times("1 ", count + 1)).as_bytes());
        each(format!("type T=struct{{{}}};", times("1:T,", count)).as_bytes());
        each(format!("fn f(){{{}}}", times("+", count)).as_bytes());
        each(format!("fn f({}){{}}", times("1:T,", count)).as_bytes());
    }
    let full = times("+", 255);
    let stars = |count| format!("var p:{}", times("*", count));
    each(format!("{full}type").as_bytes());
    each(format!("{full}use").as_bytes());
    each(format!("{full}var x:T=a.").as_bytes());
    each(format!("{full}fn f(){{a.").as_bytes());
    each(format!("{full}{}", stars(96)).as_bytes());
    each(format!("{full}{}+", stars(95)).as_bytes());
    each(format!("{full}{}T;", stars(95)).as_bytes());
    each(format!("{full}var x:T;").as_bytes());
    each(format!("{full}fn f").as_bytes());
    each(format!("{full}type type").as_bytes());
    each(format!("{full}var x:T=(+").as_bytes());
    each(format!("{full}var x:T={}a;", times("!", 96)).as_bytes());
    each(format!("{full}fn f()->{}", stars(96)).as_bytes());
    each(format!("{full}fn f(){}", times("{", 98)).as_bytes());
    let fewer = times("+", 254);
    for last in ["fn f", "fn f(){", "var x:T=(+", "type type", "use use", "var 1:T;", "var x:[", "type", "fn f(){a."] {
        each(format!("{fewer}{last}").as_bytes());
    }
}

/// A declaration that is read, with so many losses.
fn losing(count: usize) -> String {
    format!("var x:T=a{};", times("-.b", count))
}

/// Losses, with the errors and refusals of the parser before and after them.
fn losses(each: &mut dyn FnMut(&[u8])) {
    let mut script = |script: String| each(script.as_bytes());
    let stars = |count| format!("var p:{}T;", times("*", count));
    for count in [254, 255, 256, 257] {
        let lost = losing(count);
        for after in ["", ";", "asm{", "asm{}"] {
            script(format!("{lost}{after}"));
        }
        // white space is not lost
        script(format!("{}{lost}", losing(10).replace('.', " ")));
    }
    for count in [255, 256] {
        let lost = losing(count);
        for after in ["type", "use", "var y:T=a.", "var y:T=f(1 2);", ";type", "€", "-", "asm"] {
            script(format!("{lost}{after}"));
        }
        script(format!("{lost}{}", stars(95)));
        script(format!("{lost}{}", stars(96)));
        // entered before the parser begins
        script(format!("{}{lost}", stars(96)));
        script(format!(";{lost}"));
    }
    // an entry of each sort for each Minus
    for count in [127, 128] {
        script(times("-a", count));
    }
    for (lost, made) in [(249, 6), (250, 5), (250, 6), (155, 100), (155, 101), (1, 254), (1, 255), (2, 254)] {
        script(format!("{}{}", losing(lost), times(";", made)));
        script(format!("{}{}", times(";", made), losing(lost)));
        script(format!("{}{}type", times(";", made), losing(lost)));
        script(format!("{}{}asm{{", times(";", made), losing(lost - 1)));
    }
    // the refusals of the tokenizer come first
    let lost = losing(256);
    for after in [times("$", 255), times("$", 256), times(";", 1_529), times(";", 1_530), times("asm x", 256)] {
        script(format!("{lost}{after}"));
        script(format!("{after}{lost}"));
    }
}

/// Each way to open counted calls, around its limit; a way costs one call or two a step.
fn nesting(each: &mut dyn FnMut(&[u8])) {
    let ways: &[(&str, &str, &str, &str, &str)] = &[
        // before, opening, core, closing, after
        ("var p: ", "*", "T", "", ";"),
        ("var p: ", "[1]", "T", "", ";"),
        ("var p: ", "struct{a:", "T", "}", ";"),
        ("fn f(a:", "*", "T", "", "){}"),
        ("fn f()->", "*", "T", "", "{}"),
        ("type T=", "*", "T", "", ";"),
        ("fn f(){var p:", "*", "T", "", ";}"),
        ("var x:T=sizeof(", "*", "T", "", ");"),
        ("var x:T=a as ", "*", "T", "", ";"),
        ("var x:T=", "(", "a", ")", ";"),
        ("fn f(){", "(", "a", ")", ";}"),
        ("var x:T=", "a[", "a", "]", ";"),
        ("fn f(){", "a[", "a", "]", ";}"),
        ("var x:T=", "f(", "a", ")", ";"),
        ("fn f(){", "f(", "a", ")", ";}"),
        ("var x:T=", "f(a,", "a", ")", ";"),
        ("var x:T=", "!", "a", "", ";"),
        ("var x:T=", "~", "a", "", ";"),
        ("var x:T=", "*", "a", "", ";"),
        ("var x:T=", "& ", "a", "", ";"),
        ("fn f(){", "!", "a", "", ";}"),
        ("var x:T<-#[", "!", "a", "", "];"),
        ("var x:T<-#{a=", "(", "a", ")", "};"),
        ("fn f(){x=", "!", "a", "", ";}"),
        ("fn f(){x<-#[", "!", "a", "", "];}"),
        ("fn f(){return ", "!", "a", "", ";}"),
        ("fn f()", "{", "", "}", ""),
        ("fn f(){", "loop ", "break;", "", "}"),
        ("fn f(){", "while a ", "break;", "", "}"),
        ("fn f(){", "if a ", "break;", "", "}"),
        ("fn f(){", "if a break;else ", "break;", "", "}"),
        ("fn f(){", "if a{", "break;", "}", "}"),
        ("var x:T=", "!(", "a", ")", ";"),
        ("var x:T=", "-1+(", "a", ")", ";"),
    ];
    for (before, opening, core, closing, after) in ways {
        let reads = |count: usize| {
            format!("{before}{}{core}{}{after}", times(opening, count), times(closing, count))
        };
        let limit = (0..).find(|&count| crate::ask::answer(reads(count).as_bytes()).whole == Err(10)).unwrap();
        for count in [limit - 2, limit - 1, limit, limit + 1] {
            each(reads(count).as_bytes());
            each(format!("{before}{}", times(opening, count)).as_bytes());
            each(format!("{before}{}+", times(opening, count)).as_bytes());
        }
    }
    for count in [95, 96] {
        each(format!("var p: {}T;", times("*", count)).as_bytes());
    }
    for count in [46, 47, 48] {
        each(format!("var x:T={}a{};", times("(", count), times(")", count)).as_bytes());
        each(format!("fn f(){{{}a{};}}", times("(", count), times(")", count)).as_bytes());
    }
    // calls that close again do not count
    each(format!("var x:T=a{};", times(" as *T", 200)).as_bytes());
    each(format!("var x:T=a{};", times("[a]", 200)).as_bytes());
    each(format!("fn f(){{{}}}", times("loop loop{}", 100)).as_bytes());
}

fn array_sizes(each: &mut dyn FnMut(&[u8])) {
    let ones = times("1", 64);
    let sizes = [
        "18446744073709551614", "18446744073709551615", "18446744073709551616", "18446744073709551625",
        "99999999999999999999", "018446744073709551615", "0000018446744073709551615", "0x7FFFFFFFFFFFFFFF",
        "0xffffffffffffffff", "0xFFFFFFFFFFFFFFFF", "0x10000000000000000", "0x0000FFFFFFFFFFFFFFFF",
        "0x00000000000000000000001", "0", "00", "000", "0x", "0b", "0x0", "-0", "-1", "-00", "1", "255", "256",
        "-18446744073709551616", "0b2", "0xG", "a", "\"5\"", "",
    ];
    for size in sizes {
        each(format!("var x:[{size}]T;").as_bytes());
    }
    each(format!("var x:[0b{ones}]T;").as_bytes());
    each(format!("var x:[0b{ones}1]T;").as_bytes());
    each(format!("var x:[0b000{ones}]T;").as_bytes());
    each(format!("var x:[0b1{}]T;", times("0", 64)).as_bytes());
    each(format!("var x:[{}1]T;", times("0", 300)).as_bytes());
}

/// Counts of one byte and of two, in each record that has one.
fn counts(each: &mut dyn FnMut(&[u8])) {
    for count in [255, 256, 257] {
        each(times("asm{}", count).as_bytes());
        each(format!("fn f(){{{}}}", times("break;", count)).as_bytes());
        each(format!("fn f({}){{}}", times("a:T,", count)).as_bytes());
        each(format!("var x:T=f({});", times("a,", count)).as_bytes());
        each(format!("var x:T<-#[{}];", times("a,", count)).as_bytes());
        each(format!("var x:T<-#{{{}}};", times("a=b,", count)).as_bytes());
        each(format!("var x:struct{{{}}};", times("a:T,", count)).as_bytes());
    }
}
