//! Sheets as text: a text read to its sheet. The text is cut into tokens, these are read to a tree of expressions, and the tree becomes records.

use crate::answer::Fault;
use crate::sheet::{Each, Node, MOST_NODES, MOST_SECTIONS};
use crate::tokens::{begins_word, is_name, tokens, Kind, Token};
use crate::value::LARGEST_NUMBER;
use crate::{Refusal, SHEET_OUT, STARTS_MAX};

/// Reads a text to its sheet, at the front of `out`. With a refusal from 90 on, `place` is how many bytes of the text stand before the fault.
pub fn read_sheet(text: &[u8], out: &mut [u8], place: &mut usize) -> u64 {
    if out.len() < SHEET_OUT {
        return 1;
    }
    match sheet_of(text) {
        Ok(bytes) => {
            out[..bytes.len()].copy_from_slice(&bytes);
            (bytes.len() as u64) << 8
        }
        Err(fault) => {
            *place = fault.place;
            u64::from(fault.refusal) | u64::from(fault.detail) << 8
        }
    }
}

type Read<T> = Result<T, Fault>;

/// A name with its place.
#[derive(Clone, Copy)]
struct Name<'t> {
    word: &'t [u8],
    place: usize,
}

/// An expression; one node for each.
enum Expression<'t> {
    /// A variable or a constant.
    Leaf(Node),
    Front(Box<[Expression<'t>; 2]>),
    Pair(Box<[Expression<'t>; 2]>),
    /// Subject, branches and defaults.
    ListCase(Box<[Expression<'t>; 5]>, [u8; 2]),
    /// Subject and branches.
    TruthCase(Box<[Expression<'t>; 3]>, [u8; 2]),
    Split(Box<[Expression<'t>; 2]>),
    Call(Name<'t>, [u8; 2]),
    Add(u16, Box<Expression<'t>>),
    /// Subject and default.
    Each(Name<'t>, u8, Box<[Expression<'t>; 2]>),
}

/// The variables that an expression may name, and the detail for a name that is none of them.
#[derive(Clone)]
struct Scope<'t> {
    names: Vec<&'t [u8]>,
    lost: u8,
}

impl<'t> Scope<'t> {
    fn new(names: &[&'t [u8]], lost: u8) -> Scope<'t> {
        Scope { names: names.to_vec(), lost }
    }

    fn with(&self, new: [&'t [u8]; 2]) -> Scope<'t> {
        Scope { names: [&self.names[..], &new].concat(), lost: self.lost }
    }
}

/// A detail for what stands in the place of an optional test, and one for what stands behind a test.
type Behind = (u8, u8);

struct Reader<'t> {
    text: &'t [u8],
    tokens: Vec<Token<'t>>,
    /// Which token is ahead.
    at: usize,
    /// How many nodes were met.
    nodes: usize,
}

fn sheet_of(text: &[u8]) -> Read<Vec<u8>> {
    let mut reader = Reader { text, tokens: tokens(text), at: 0, nodes: 0 };
    let plan = reader.plan()?;
    let root = reader.expression(&plan)?;
    let sections = reader.sections()?;
    let (names, roots): (Vec<&[u8]>, Vec<Expression>) = sections.into_iter().unzip();

    let mut nodes = Vec::new();
    let mut sheet = vec![0x01, plan.names.len() as u8, place(root, &names, &mut nodes)?];
    for root in roots {
        sheet.extend([0x20, place(root, &names, &mut nodes)?]);
    }
    for node in nodes {
        node.write(&mut sheet, |node| node, |section| section);
    }
    Ok(sheet)
}

/// Adds the nodes of an expression: its own number, behind which stand those of its parts.
fn place(expression: Expression, sections: &[&[u8]], nodes: &mut Vec<Node>) -> Read<u8> {
    let own = nodes.len();
    nodes.push(Node::False);
    let section = |name: Name| match sections.iter().position(|section| *section == name.word) {
        Some(number) => Ok(number as u8),
        None => Err(Fault { refusal: 91, place: name.place, detail: 43 }),
    };
    nodes[own] = match expression {
        Expression::Leaf(node) => node,
        Expression::Front(parts) => {
            let [first, rest] = all(*parts, sections, nodes)?;
            Node::Front { first, rest }
        }
        Expression::Pair(parts) => {
            let [left, right] = all(*parts, sections, nodes)?;
            Node::Pair { left, right }
        }
        Expression::ListCase(parts, [empty_test, front_test]) => {
            let [subject, empty, front, default_first, default_rest] = all(*parts, sections, nodes)?;
            Node::ListCase { subject, empty, empty_test, front, front_test, default_first, default_rest }
        }
        Expression::TruthCase(parts, [no_test, yes_test]) => {
            let [subject, no, yes] = all(*parts, sections, nodes)?;
            Node::TruthCase { subject, no, no_test, yes, yes_test }
        }
        Expression::Split(parts) => {
            let [subject, inner] = all(*parts, sections, nodes)?;
            Node::Split { subject, inner }
        }
        Expression::Call(name, [left, right]) => Node::Call { section: section(name)?, left, right },
        Expression::Add(amount, inner) => Node::Add { node: place(*inner, sections, nodes)?, amount },
        Expression::Each(name, variable, parts) => {
            let section = section(name)?;
            let [subject, default] = all(*parts, sections, nodes)?;
            Node::Each(Each { subject, section, variable, default })
        }
    };
    Ok(own as u8)
}

fn all<const N: usize>(parts: [Expression; N], sections: &[&[u8]], nodes: &mut Vec<Node>) -> Read<[u8; N]> {
    let mut numbers = [0; N];
    for (number, part) in numbers.iter_mut().zip(parts) {
        *number = place(part, sections, nodes)?;
    }
    Ok(numbers)
}

impl<'t> Reader<'t> {
    fn ahead(&self) -> Token<'t> {
        self.tokens[self.at]
    }

    fn fault<T>(&self, refusal: Refusal, detail: u8) -> Read<T> {
        Err(Fault { refusal, place: self.ahead().place, detail })
    }

    /// Takes the token ahead where it is this one.
    fn take(&mut self, kind: Kind, bytes: &[u8]) -> bool {
        let taken = self.ahead().kind == kind && (kind != Kind::Word || self.ahead().bytes == bytes);
        self.at += usize::from(taken);
        taken
    }

    fn takes_sign(&mut self, sign: u8) -> bool {
        self.take(Kind::Sign(sign), &[])
    }

    fn takes_word(&mut self, word: &[u8]) -> bool {
        self.take(Kind::Word, word)
    }

    fn sign(&mut self, sign: u8, detail: u8) -> Read<()> {
        if self.takes_sign(sign) {
            Ok(())
        } else {
            self.fault(90, detail)
        }
    }

    fn word(&mut self, word: &[u8], detail: u8) -> Read<()> {
        if self.takes_word(word) {
            Ok(())
        } else {
            self.fault(90, detail)
        }
    }

    fn arrow(&mut self) -> Read<()> {
        if self.take(Kind::Arrow, &[]) {
            Ok(())
        } else {
            self.fault(90, 19)
        }
    }

    /// The name ahead, which is not taken yet.
    fn name(&self, detail: u8) -> Read<Name<'t>> {
        let Token { kind, place, bytes } = self.ahead();
        if kind == Kind::Word && is_name(bytes) {
            Ok(Name { word: bytes, place })
        } else {
            self.fault(90, detail)
        }
    }

    /// A new name that is none of these, or `_`.
    fn bind(&mut self, others: &[&[u8]]) -> Read<&'t [u8]> {
        if self.takes_word(b"_") {
            return Ok(b"_");
        }
        let Name { word, .. } = self.name(2)?;
        if others.contains(&word) {
            return self.fault(92, 50);
        }
        self.at += 1;
        Ok(word)
    }

    /// Two new names, with a sign between them and one behind.
    fn bind_two(&mut self, others: &[&'t [u8]], between: (u8, u8), behind: (u8, u8)) -> Read<[&'t [u8]; 2]> {
        let left = self.bind(others)?;
        self.sign(between.0, between.1)?;
        let right = self.bind(&[others, &[left]].concat())?;
        self.sign(behind.0, behind.1)?;
        Ok([left, right])
    }

    /// Two new names in round brackets.
    fn bind_pair(&mut self, others: &[&'t [u8]]) -> Read<[&'t [u8]; 2]> {
        self.sign(b'(', 8)?;
        self.bind_two(others, (b',', 9), (b')', 10))
    }

    fn variable(&mut self, scope: &Scope) -> Read<u8> {
        if self.takes_sign(b'#') {
            return self.variable_number();
        }
        let Name { word, .. } = self.name(11)?;
        let Some(number) = scope.names.iter().position(|name| *name == word) else { return self.fault(91, scope.lost) };
        self.at += 1;
        Ok(number as u8)
    }

    /// The number right behind the `#` that was taken.
    fn variable_number(&mut self) -> Read<u8> {
        let behind = self.tokens[self.at - 1].end();
        if self.ahead().kind != Kind::Digits || self.ahead().place != behind {
            return Err(Fault { refusal: 90, place: behind, detail: 12 });
        }
        Ok(self.number(255, 64)? as u8)
    }

    /// The number ahead, up to the most.
    fn number(&mut self, most: u32, detail: u8) -> Read<u32> {
        let Token { place, bytes, .. } = self.ahead();
        let fault = |behind: usize, detail: u8| Err(Fault { refusal: 93, place: place + behind, detail });
        if let [b'0', _, ..] = bytes {
            return fault(1, 61);
        }
        let mut number = 0_u32;
        for (behind, digit) in bytes.iter().enumerate() {
            let longer = number.checked_mul(10).and_then(|tens| tens.checked_add(u32::from(digit - b'0')));
            match longer.filter(|&longer| longer <= most) {
                Some(longer) => number = longer,
                None => return fault(behind, detail),
            }
        }
        if self.text.get(place + bytes.len()).copied().is_some_and(begins_word) {
            return fault(bytes.len(), 62);
        }
        self.at += 1;
        Ok(number)
    }

    /// A node more, which begins with the token ahead.
    fn count(&mut self) -> Read<()> {
        if self.nodes == MOST_NODES {
            return self.fault(94, 72);
        }
        self.nodes += 1;
        Ok(())
    }

    fn expression(&mut self, scope: &Scope<'t>) -> Read<Expression<'t>> {
        let Token { kind, bytes, place } = self.ahead();
        let begins = match kind {
            Kind::Word => is_name(bytes) || [&b"true"[..], b"false", b"let", b"case", b"each"].contains(&bytes),
            Kind::Digits => true,
            Kind::Sign(sign) => b"#([".contains(&sign),
            Kind::Arrow | Kind::End => false,
        };
        if !begins {
            return self.fault(90, 5);
        }
        self.count()?;
        if kind == Kind::Digits {
            return self.number_or_sum(scope);
        }
        if self.tokens[self.at + 1].kind == Kind::Sign(b'(') && kind == Kind::Word && is_name(bytes) {
            self.at += 2;
            return Ok(Expression::Call(Name { word: bytes, place }, self.two_variables(scope)?));
        }
        if kind == Kind::Sign(b'#') || kind == Kind::Word && is_name(bytes) {
            return Ok(Expression::Leaf(Node::Variable(self.variable(scope)?)));
        }
        self.at += 1;
        match bytes {
            b"true" => Ok(Expression::Leaf(Node::True)),
            b"false" => Ok(Expression::Leaf(Node::False)),
            b"let" => self.split(scope),
            b"case" => self.case(scope),
            b"each" => self.each(scope),
            b"(" => self.pair(scope),
            _ if self.takes_sign(b']') => Ok(Expression::Leaf(Node::Empty)),
            _ => self.members(scope),
        }
    }

    /// Two variables and the bracket behind them.
    fn two_variables(&mut self, scope: &Scope) -> Read<[u8; 2]> {
        let left = self.variable(scope)?;
        self.sign(b',', 9)?;
        let right = self.variable(scope)?;
        self.sign(b')', 10)?;
        Ok([left, right])
    }

    fn number_or_sum(&mut self, scope: &Scope<'t>) -> Read<Expression<'t>> {
        let number = self.number(u32::MAX, 60)?;
        let small = (number <= LARGEST_NUMBER).then_some(number as u16);
        if self.ahead().kind == Kind::Sign(b'+') {
            let Some(amount) = small else { return self.fault(93, 63) };
            self.at += 1;
            return Ok(Expression::Add(amount, Box::new(self.expression(scope)?)));
        }
        Ok(Expression::Leaf(small.map_or(Node::Wide(number), Node::Number)))
    }

    fn pair(&mut self, scope: &Scope<'t>) -> Read<Expression<'t>> {
        let left = self.expression(scope)?;
        self.sign(b',', 9)?;
        let right = self.expression(scope)?;
        self.sign(b')', 10)?;
        Ok(Expression::Pair(Box::new([left, right])))
    }

    /// The members of a list from one on, whose front was counted, to the list's end.
    fn members(&mut self, scope: &Scope<'t>) -> Read<Expression<'t>> {
        let first = self.expression(scope)?;
        let rest = match self.ahead().kind {
            Kind::Sign(b',') => {
                self.count()?;
                self.at += 1;
                self.members(scope)?
            }
            Kind::Sign(b'|') => {
                self.at += 1;
                let rest = self.expression(scope)?;
                self.sign(b']', 14)?;
                rest
            }
            Kind::Sign(b']') => {
                self.count()?;
                self.at += 1;
                Expression::Leaf(Node::Empty)
            }
            _ => return self.fault(90, 13),
        };
        Ok(Expression::Front(Box::new([first, rest])))
    }

    fn split(&mut self, scope: &Scope<'t>) -> Read<Expression<'t>> {
        let names = self.bind_pair(&scope.names)?;
        self.sign(b'=', 4)?;
        let subject = self.expression(scope)?;
        self.word(b"in", 15)?;
        let inner = self.expression(&scope.with(names))?;
        Ok(Expression::Split(Box::new([subject, inner])))
    }

    fn each(&mut self, scope: &Scope<'t>) -> Read<Expression<'t>> {
        let name = self.name(7)?;
        self.at += 1;
        self.sign(b'(', 8)?;
        let subject = self.expression(scope)?;
        self.sign(b',', 9)?;
        let variable = self.variable(scope)?;
        self.sign(b')', 10)?;
        self.word(b"default", 25)?;
        let default = self.expression(&Scope::new(&[], 42))?;
        Ok(Expression::Each(name, variable, Box::new([subject, default])))
    }

    fn case(&mut self, scope: &Scope<'t>) -> Read<Expression<'t>> {
        let subject = self.expression(scope)?;
        self.word(b"of", 16)?;
        if self.takes_word(b"false") {
            self.truth_case(subject, scope)
        } else if self.takes_sign(b'[') {
            self.list_case(subject, scope)
        } else {
            self.fault(90, 17)
        }
    }

    fn truth_case(&mut self, subject: Expression<'t>, scope: &Scope<'t>) -> Read<Expression<'t>> {
        let (no, no_test, detail) = self.branch(scope, (28, 29))?;
        self.word(b"true", detail)?;
        let (yes, yes_test, detail) = self.branch(scope, (30, 31))?;
        self.word(b"end", detail)?;
        Ok(Expression::TruthCase(Box::new([subject, no, yes]), [no_test, yes_test]))
    }

    fn list_case(&mut self, subject: Expression<'t>, scope: &Scope<'t>) -> Read<Expression<'t>> {
        self.sign(b']', 18)?;
        let (empty, empty_test, detail) = self.branch(scope, (20, 21))?;
        self.sign(b'[', detail)?;
        let names = self.bind_two(&scope.names, (b'|', 22), (b']', 14))?;
        let (front, front_test, detail) = self.branch(&scope.with(names), (24, 25))?;
        self.word(b"default", detail)?;
        let sent = Scope::new(&[b"sent"], 41);
        let [first, rest] = names;
        self.word(first, 26)?;
        self.sign(b'=', 4)?;
        let first = self.expression(&sent)?;
        self.sign(b',', 9)?;
        self.word(rest, 27)?;
        self.sign(b'=', 4)?;
        let rest = self.expression(&sent)?;
        self.word(b"end", 31)?;
        Ok(Expression::ListCase(Box::new([subject, empty, front, first, rest]), [empty_test, front_test]))
    }

    /// A branch from its arrow on, its test, and the detail for what must stand behind them.
    fn branch(&mut self, scope: &Scope<'t>, behind: Behind) -> Read<(Expression<'t>, u8, u8)> {
        self.arrow()?;
        let result = self.expression(scope)?;
        if !self.takes_word(b"with") {
            return Ok((result, 0, behind.0));
        }
        let tests = [&b"any"[..], b"empty", b"members", b"false", b"true", b"one", b"many"];
        let Some(test) = tests.iter().position(|test| self.takes_word(test)) else { return self.fault(90, 23) };
        Ok((result, test as u8, behind.1))
    }

    /// The text down to its list: the names of the plan's values.
    fn plan(&mut self) -> Read<Scope<'t>> {
        self.word(b"plan", 1)?;
        let mut names = vec![self.bind(&[])?];
        while self.takes_sign(b',') {
            let Token { kind, bytes, .. } = self.ahead();
            if names.len() == STARTS_MAX && kind == Kind::Word && (bytes == b"_" || is_name(bytes)) {
                return self.fault(94, 70);
            }
            names.push(self.bind(&names)?);
        }
        self.word(b"list", 3)?;
        self.sign(b'=', 4)?;
        Ok(Scope { names, lost: 40 })
    }

    /// The sections to the end of the text, each with its name.
    fn sections(&mut self) -> Read<Vec<(&'t [u8], Expression<'t>)>> {
        let mut sections: Vec<(&[u8], Expression)> = Vec::new();
        while self.ahead().kind != Kind::End {
            if sections.len() == MOST_SECTIONS && self.ahead().bytes == b"section" {
                return self.fault(94, 71);
            }
            self.word(b"section", 6)?;
            let Name { word, .. } = self.name(7)?;
            if sections.iter().any(|&(section, _)| section == word) {
                return self.fault(92, 51);
            }
            self.at += 1;
            let names = self.bind_pair(&[])?;
            self.sign(b'=', 4)?;
            sections.push((word, self.expression(&Scope::new(&names, 40))?));
        }
        Ok(sections)
    }
}
