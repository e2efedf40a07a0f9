//! Sheets as text: a sheet printed. What has no case in it stands on one line.

use crate::answer::{packed, NodeRefusal};
use crate::numbering::read_used_once;
use crate::sheet::{Each, Node, Sheet, MOST_NODES};
use crate::TEXT_OUT;
use std::fmt::{self, Write};

/// Prints a sheet as text, at the front of `out`.
pub fn print_sheet(sheet: &[u8], out: &mut [u8]) -> u64 {
    packed(printed(sheet, out))
}

fn printed(sheet: &[u8], out: &mut [u8]) -> Result<usize, NodeRefusal> {
    if out.len() < TEXT_OUT {
        return Err(1.into());
    }
    let text = text_of(&read_used_once(sheet)?);
    out[..text.len()].copy_from_slice(text.as_bytes());
    Ok(text.len())
}

fn text_of(sheet: &Sheet) -> String {
    let mut page = Page { sheet, tall: tall(sheet), text: String::with_capacity(TEXT_OUT) };
    for variable in 0..sheet.k {
        page.say(format_args!("{} {}", if variable == 0 { "plan" } else { "," }, Name(variable)));
    }
    page.text += "\nlist =";
    page.behind(sheet.root, Scope { count: sheet.k, sent: false }, 2);
    for (number, &root) in sheet.sections().iter().enumerate() {
        page.say(format_args!("\n\nsection part{number}(a, b) ="));
        page.behind(root, Scope { count: 2, sent: false }, 2);
    }
    page.text + "\n"
}

/// The most blanks in front of a line.
const MOST_BLANKS: usize = 32;

const TESTS: [&str; 7] = ["", " with empty", " with members", " with false", " with true", " with one", " with many"];

/// A variable as it is named by its number: `a` to `z`, then `a1` to `z1` and so on.
#[derive(Clone, Copy)]
struct Name(u8);

impl fmt::Display for Name {
    fn fmt(&self, f: &mut fmt::Formatter) -> fmt::Result {
        f.write_char(char::from(b'a' + self.0 % 26))?;
        match self.0 / 26 {
            0 => Ok(()),
            round => write!(f, "{round}"),
        }
    }
}

/// How many variables there are, and whether variable 0 is what is put into a case.
#[derive(Clone, Copy)]
struct Scope {
    count: u8,
    sent: bool,
}

/// Of a default of a list case.
const SENT: Scope = Scope { count: 1, sent: true };
/// Of the default of an each.
const NONE: Scope = Scope { count: 0, sent: false };

impl Scope {
    /// The next two variables, and the scope that has them too.
    fn wider(self) -> (Name, Name, Scope) {
        (Name(self.count), Name(self.count + 1), Scope { count: self.count + 2, ..self })
    }
}

/// The members of a list of fronts, and what stands behind the last: nothing, where that is the empty list.
fn members(sheet: &Sheet, mut first: u8, mut rest: u8) -> (Vec<u8>, Option<u8>) {
    let mut members = vec![first];
    while let Node::Front { first: next, rest: behind } = sheet.node(rest) {
        (first, rest) = (next, behind);
        members.push(first);
    }
    (members, (!matches!(sheet.node(rest), Node::Empty)).then_some(rest))
}

/// Which nodes have a case in them: they take more than one line.
fn tall(sheet: &Sheet) -> [bool; MOST_NODES] {
    let mut tall = [false; MOST_NODES];
    // Children have higher numbers.
    for (number, node) in sheet.nodes().iter().enumerate().rev() {
        let mut any = matches!(node, Node::ListCase { .. } | Node::TruthCase { .. });
        node.for_children(|child| any |= tall[usize::from(child)]);
        tall[number] = any;
    }
    tall
}

struct Page<'s> {
    sheet: &'s Sheet,
    tall: [bool; MOST_NODES],
    text: String,
}

impl Page<'_> {
    fn say(&mut self, said: fmt::Arguments) {
        self.text.write_fmt(said).expect("a string takes all");
    }

    fn new_line(&mut self, indent: usize) {
        self.say(format_args!("\n{:1$}", "", indent.min(MOST_BLANKS)));
    }

    /// Behind an arrow or a `=`: in the same line where it is one line, or else on lines of its own.
    fn behind(&mut self, node: u8, scope: Scope, indent: usize) {
        if self.tall[usize::from(node)] {
            self.new_line(indent);
        } else {
            self.text.push(' ');
        }
        self.node(node, scope, indent);
    }

    /// A node from where the text is, the lines behind the first indented so far.
    fn node(&mut self, node: u8, scope: Scope, indent: usize) {
        if self.tall[usize::from(node)] {
            self.lines(node, scope, indent);
        } else {
            self.line(node, scope);
        }
    }

    /// A node that has no case in it.
    fn line(&mut self, node: u8, scope: Scope) {
        match self.sheet.node(node) {
            Node::Variable(variable) => self.variable(variable, scope),
            Node::False => self.text += "false",
            Node::True => self.text += "true",
            Node::Empty => self.text += "[]",
            Node::Number(number) => self.say(format_args!("{number}")),
            Node::Wide(number) => self.say(format_args!("{number}")),
            Node::Front { first, rest } => {
                let (members, end) = members(self.sheet, first, rest);
                for (at, &member) in members.iter().enumerate() {
                    self.text += if at == 0 { "[" } else { ", " };
                    self.line(member, scope);
                }
                if let Some(end) = end {
                    self.text += " | ";
                    self.line(end, scope);
                }
                self.text += "]";
            }
            Node::Pair { left, right } => {
                self.text += "(";
                self.line(left, scope);
                self.text += ", ";
                self.line(right, scope);
                self.text += ")";
            }
            Node::Split { subject, inner } => {
                let wider = self.open_split(scope);
                self.line(subject, scope);
                self.text += " in ";
                self.line(inner, wider);
            }
            Node::Call { section, left, right } => {
                self.say(format_args!("part{section}("));
                self.variable(left, scope);
                self.text += ", ";
                self.variable(right, scope);
                self.text += ")";
            }
            Node::Add { node, amount } => {
                self.say(format_args!("{amount} + "));
                self.line(node, scope);
            }
            Node::Each(each) => self.each(each, scope, 0),
            Node::ListCase { .. } | Node::TruthCase { .. } => unreachable!("a case takes lines"),
        }
    }

    fn variable(&mut self, variable: u8, scope: Scope) {
        match variable {
            _ if variable >= scope.count => self.say(format_args!("#{variable}")),
            0 if scope.sent => self.text += "sent",
            _ => self.say(format_args!("{}", Name(variable))),
        }
    }

    /// A split down to its subject: the scope inside.
    fn open_split(&mut self, scope: Scope) -> Scope {
        let (left, right, wider) = scope.wider();
        self.say(format_args!("let ({left}, {right}) = "));
        wider
    }

    fn each(&mut self, Each { subject, section, variable, default }: Each, scope: Scope, indent: usize) {
        self.say(format_args!("each part{section}("));
        self.node(subject, scope, indent + 2);
        self.text += ", ";
        self.variable(variable, scope);
        self.text += ") default ";
        self.node(default, NONE, indent + 2);
    }

    /// A node that has a case in it.
    fn lines(&mut self, node: u8, scope: Scope, indent: usize) {
        match self.sheet.node(node) {
            Node::Front { first, rest } => {
                let (members, end) = members(self.sheet, first, rest);
                let members = members.into_iter().enumerate().map(|(at, member)| (if at == 0 { "[ " } else { ", " }, member));
                self.parts(members.chain(end.map(|end| ("| ", end))), scope, indent);
                self.text += " ]";
            }
            Node::Pair { left, right } => {
                self.parts([("( ", left), (", ", right)], scope, indent);
                self.text += " )";
            }
            Node::ListCase { subject, empty, empty_test, front, front_test, default_first, default_rest } => {
                let (first, rest, wider) = scope.wider();
                let members = format!("[{first} | {rest}]");
                self.subject(subject, scope, indent);
                self.branch(&format!("{:<1$}", "[]", members.len()), empty, empty_test, scope, indent);
                self.branch(&members, front, front_test, wider, indent);
                self.new_line(indent + 4);
                self.say(format_args!("default {first} ="));
                self.behind(default_first, SENT, indent + 6);
                self.say(format_args!(", {rest} ="));
                self.behind(default_rest, SENT, indent + 6);
                self.new_line(indent);
                self.text += "end";
            }
            Node::TruthCase { subject, no, no_test, yes, yes_test } => {
                self.subject(subject, scope, indent);
                self.branch("false", no, no_test, scope, indent);
                self.branch("true ", yes, yes_test, scope, indent);
                self.new_line(indent);
                self.text += "end";
            }
            Node::Split { subject, inner } => {
                let wider = self.open_split(scope);
                self.node(subject, scope, indent + 2);
                self.text += " in";
                self.new_line(indent);
                self.node(inner, wider, indent);
            }
            Node::Add { node, amount } => {
                self.say(format_args!("{amount} + "));
                self.node(node, scope, indent);
            }
            Node::Each(each) => self.each(each, scope, indent),
            _ => unreachable!("a node that is one line"),
        }
    }

    /// The parts of a pair or a list, each on a line of its own behind its sign.
    fn parts(&mut self, parts: impl IntoIterator<Item = (&'static str, u8)>, scope: Scope, indent: usize) {
        for (at, (sign, part)) in parts.into_iter().enumerate() {
            if at > 0 {
                self.new_line(indent);
            }
            self.text += sign;
            self.node(part, scope, indent + 2);
        }
    }

    fn subject(&mut self, subject: u8, scope: Scope, indent: usize) {
        self.text += "case ";
        self.node(subject, scope, indent + 2);
        self.text += " of";
    }

    fn branch(&mut self, pattern: &str, result: u8, test: u8, scope: Scope, indent: usize) {
        self.new_line(indent + 2);
        self.text += pattern;
        self.text += " ->";
        self.behind(result, scope, indent + 4);
        self.text += TESTS[usize::from(test)];
    }
}
