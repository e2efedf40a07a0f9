//! Random texts of sheets, as tokens: mostly as the grammar has them, with names about the scope and numbers about the limits.

use crate::random::Random;

/// Names for variables and sections, one of which is a word of the language but for a capital letter.
const NAMES: [&str; 12] = ["a", "b", "c", "row", "seat", "rest", "price", "x1", "_y", "Plan", "sent", "any"];
const SECTIONS: [&str; 4] = ["f", "join", "part0", "row"];
const TESTS: [&str; 7] = ["any", "empty", "members", "false", "true", "one", "many"];
/// What a token may become that is spoiled.
const OTHERS: [&str; 48] = [
    "plan",
    "list",
    "section",
    "case",
    "of",
    "with",
    "default",
    "end",
    "let",
    "in",
    "each",
    "true",
    "false",
    "(",
    ")",
    "[",
    "]",
    ",",
    "|",
    "=",
    "+",
    "->",
    "#",
    "_",
    "a",
    "sent",
    "rest",
    "f",
    "any",
    "many",
    "if",
    "True",
    "0",
    "1",
    "00",
    "65535",
    "65536",
    "4294967295",
    "4294967296",
    "12x",
    "#255",
    "#256",
    "-",
    ":",
    "\"",
    ">",
    "\0",
    "é",
];

pub type Tokens = Vec<String>;

struct Writer<'r> {
    random: &'r mut Random,
    tokens: Tokens,
    /// The sections that are written.
    sections: usize,
}

/// A text whose expressions nest at most so deep.
pub fn text(random: &mut Random, depth: usize) -> Tokens {
    let sections = if random.percent(2) { random.of(8..10) } else { random.pick(&[0, 0, 1, 1, 2, 3]) };
    let count = if random.percent(3) { random.of(16..18) } else { random.of(1..4) };
    let mut writer = Writer { random, tokens: Vec::new(), sections };
    writer.say("plan");
    let mut scope = Vec::new();
    for number in 0..count {
        if number > 0 {
            writer.say(",");
        }
        let name = if count > 4 { format!("v{number}") } else { writer.new_name(&scope) };
        writer.say(&name);
        scope.push(name);
    }
    writer.say("list =");
    if writer.random.percent(4) {
        writer.wide(&scope);
    } else {
        writer.expression(&scope, depth);
    }
    for number in 0..sections {
        let name = section_name(number);
        writer.say("section");
        writer.say(&name);
        let names = writer.names_in(&[], "(", ",", ")");
        writer.say("=");
        writer.expression(&names, depth);
    }
    writer.tokens
}

fn section_name(number: usize) -> String {
    SECTIONS.get(number).map_or_else(|| format!("s{number}"), |name| name.to_string())
}

impl Writer<'_> {
    /// Adds the tokens of a part of a text, between which it has blanks.
    fn say(&mut self, part: &str) {
        self.tokens.extend(part.split(' ').map(str::to_string));
    }

    /// A name that is new in the scope, or `_`; seldom any.
    fn new_name(&mut self, scope: &[String]) -> String {
        let free: Vec<&str> = NAMES.iter().copied().filter(|name| !scope.iter().any(|taken| taken == name)).collect();
        match self.random.below(40) {
            0 => self.random.pick(&NAMES).to_string(),
            1..=6 => "_".to_string(),
            _ if free.is_empty() => format!("v{}", scope.len()),
            _ => self.random.pick(&free).to_string(),
        }
    }

    /// Two new names between signs.
    fn names_in(&mut self, scope: &[String], before: &str, between: &str, behind: &str) -> Vec<String> {
        let first = self.new_name(scope);
        let second = self.new_name(&[scope, std::slice::from_ref(&first)].concat());
        for token in [before, &first, between, &second, behind] {
            self.say(token);
        }
        vec![first, second]
    }

    /// A variable of the scope; seldom by its number, or another.
    fn variable(&mut self, scope: &[String]) {
        let named: Vec<&String> = scope.iter().filter(|name| *name != "_").collect();
        let variable = match self.random.below(30) {
            0 => self.random.pick(&NAMES).to_string(),
            1 | 2 => format!("#{}", self.random.below(6)),
            _ if named.is_empty() => "#0".to_string(),
            _ => named[self.random.below(named.len())].clone(),
        };
        self.say(&variable);
    }

    fn section(&mut self) {
        let number =
            if self.sections == 0 || self.random.percent(3) { self.random.below(4) } else { self.random.below(self.sections) };
        self.say(&section_name(number));
    }

    fn number(&mut self) {
        let number = match self.random.below(12) {
            0 => 65_534 + self.random.below(4),
            1 => 4_294_967_292 + self.random.below(5),
            2..=5 => self.random.below(70_000),
            _ => self.random.below(20),
        };
        self.say(&number.to_string());
    }

    fn expression(&mut self, scope: &[String], depth: usize) {
        if depth == 0 {
            return match self.random.below(8) {
                0 => self.number(),
                1 => self.say("true"),
                2 => self.say("[ ]"),
                _ => self.variable(scope),
            };
        }
        let depth = depth - 1;
        match self.random.below(11) {
            0 => self.variable(scope),
            1 => self.say("false"),
            2 => {
                self.number();
                if self.random.percent(60) {
                    self.say("+");
                    self.expression(scope, depth);
                }
            }
            3 => {
                self.say("(");
                self.expression(scope, depth);
                self.say(",");
                self.expression(scope, depth);
                self.say(")");
            }
            4 | 5 => self.list(scope, depth),
            6 => {
                self.say("let");
                let names = self.names_in(scope, "(", ",", ")");
                self.say("=");
                self.expression(scope, depth / 2);
                self.say("in");
                self.expression(&[scope, &names].concat(), depth);
            }
            7 => {
                self.section();
                self.say("(");
                self.variable(scope);
                self.say(",");
                self.variable(scope);
                self.say(")");
            }
            8 => {
                self.say("each");
                self.section();
                self.say("(");
                self.expression(scope, depth / 2);
                self.say(",");
                self.variable(scope);
                self.say(") default");
                self.expression(&[], depth / 2);
            }
            9 => {
                self.say("case");
                self.expression(scope, depth / 2);
                self.say("of false");
                self.branch(scope, depth);
                self.say("true");
                self.branch(scope, depth);
                self.say("end");
            }
            _ => self.list_case(scope, depth),
        }
    }

    /// Splits within one another, up to about as many as the nodes of a sheet allow, and two of all their variables, by number.
    fn wide(&mut self, scope: &[String]) {
        for _ in 0..self.random.of(1..100) {
            self.say("let ( _ , _ ) =");
            self.variable(scope);
            self.say("in");
        }
        let [left, right] = [(); 2].map(|()| self.random.below(220));
        self.say(&format!("( #{left} , #{right} )"));
    }

    fn list(&mut self, scope: &[String], depth: usize) {
        // Few members, or about as many as the nodes of a sheet allow.
        let members = if self.random.percent(2) { self.random.of(95..101) } else { self.random.below(4) };
        let depth = if members > 4 { 0 } else { depth };
        self.say("[");
        for member in 0..members {
            if member > 0 {
                self.say(",");
            }
            self.expression(scope, depth);
        }
        if members > 0 && self.random.percent(30) {
            self.say("|");
            self.expression(scope, depth);
        }
        self.say("]");
    }

    fn list_case(&mut self, scope: &[String], depth: usize) {
        let sent = ["sent".to_string()];
        self.say("case");
        self.expression(scope, depth / 2);
        self.say("of [ ]");
        self.branch(scope, depth);
        let names = self.names_in(scope, "[", "|", "]");
        self.branch(&[scope, &names].concat(), depth);
        self.say("default");
        for (name, behind) in names.iter().zip([",", "end"]) {
            self.say(name);
            self.say("=");
            self.expression(&sent, depth / 2);
            self.say(behind);
        }
    }

    fn branch(&mut self, scope: &[String], depth: usize) {
        self.say("->");
        self.expression(scope, depth);
        if self.random.percent(50) {
            self.say("with");
            let test = self.random.pick(&TESTS);
            self.say(test);
        }
    }
}

/// One token left out, said twice, moved, or replaced by another.
pub fn spoil(random: &mut Random, tokens: &mut Tokens) {
    let at = random.below(tokens.len());
    match random.below(6) {
        0 if tokens.len() > 1 => {
            tokens.remove(at);
        }
        1 => tokens.insert(at, tokens[at].clone()),
        2 => {
            let other = random.below(tokens.len());
            tokens.swap(at, other);
        }
        _ => tokens[at] = random.pick(&OTHERS).to_string(),
    }
}

/// Signs that end where they end, whatever stands beside them.
const PLAIN: [&str; 8] = ["(", ")", "[", "]", ",", "|", "=", "+"];

/// The bytes of a text: its tokens with white space and comments between them, or nothing where that is as good.
pub fn bytes(random: &mut Random, tokens: &[String]) -> Vec<u8> {
    let mut bytes = Vec::new();
    let mut before = "(";
    for token in tokens {
        if !PLAIN.contains(&before) && !PLAIN.contains(&token.as_str()) || random.percent(20) {
            space(random, &mut bytes);
        }
        bytes.extend(token.as_bytes());
        before = token;
    }
    if random.percent(50) {
        space(random, &mut bytes);
    }
    bytes
}

fn space(random: &mut Random, bytes: &mut Vec<u8>) {
    loop {
        match random.below(30) {
            0 => bytes.extend(b"-- (a comment \xE9\0\n"),
            1 => bytes.extend(b"-->\n"),
            _ => bytes.push(random.pick(b"    \n\t\r")),
        }
        if random.percent(80) {
            break;
        }
    }
}
