//! The check of a sheet by types (document 02, request 6): every node that is reached has its lent type in its scope.

use crate::answer::{packed, NodeRefusal};
use crate::numbering::lowest_used_twice;
use crate::sheet::{Each, Node, Sheet};
use crate::value::LONGEST;

const TRUTH: u8 = 0x30;
const NUMBER: u8 = 0x31;
/// A list, before its member's type.
const LIST: u8 = 0x32;
/// A pair, before its two types.
const PAIR: u8 = 0x33;

/// A type's bytes.
type Type<'t> = &'t [u8];

/// Checks a sheet by the types lent beside it: one for each plan variable, for each section two parameters and a result, the view's, one for
/// each node.
pub fn check_types(sheet: &[u8], types: &[u8]) -> u64 {
    packed(check(sheet, types).map(|()| 0))
}

fn check(sheet: &[u8], types: &[u8]) -> Result<(), NodeRefusal> {
    let sheet = Sheet::read(sheet)?;
    let lent = Lent::read(&sheet, types).ok_or(80)?;
    if let Some(node) = lowest_used_twice(&sheet) {
        return Err(NodeRefusal { refusal: 81, node: Some(node) });
    }
    let mut check = Check { sheet: &sheet, lent: &lent, scope: Vec::with_capacity(64), fault: None };
    check.root(sheet.root, lent.plan(), lent.view());
    for (section, &root) in sheet.sections().iter().enumerate() {
        let [left, right, result] = lent.section(section as u8);
        check.root(root, &[left, right], result);
    }
    check.fault.map_or(Ok(()), |node| Err(NodeRefusal { refusal: 82, node: Some(node) }))
}

/// The lent types, in the order in which they stand.
struct Lent<'t> {
    types: Vec<Type<'t>>,
    k: usize,
    sections: usize,
}

impl<'t> Lent<'t> {
    /// As many types as the sheet asks for; none where one is malformed or too long, where they are too few, or where bytes are left.
    fn read(sheet: &Sheet, mut bytes: &'t [u8]) -> Option<Lent<'t>> {
        let (k, sections) = (usize::from(sheet.k), sheet.sections().len());
        let count = k + 3 * sections + 1 + sheet.nodes().len();
        let mut types = Vec::with_capacity(count);
        for _ in 0..count {
            let (first, rest) = bytes.split_at(length(bytes)?);
            types.push(first);
            bytes = rest;
        }
        bytes.is_empty().then_some(Lent { types, k, sections })
    }

    fn plan(&self) -> &[Type<'t>] {
        &self.types[..self.k]
    }

    /// The types of a section's two variables and of what it gives.
    fn section(&self, section: u8) -> [Type<'t>; 3] {
        let at = self.k + 3 * usize::from(section);
        [self.types[at], self.types[at + 1], self.types[at + 2]]
    }

    fn view(&self) -> Type<'t> {
        self.types[self.k + 3 * self.sections]
    }

    fn node(&self, node: u8) -> Type<'t> {
        self.types[self.k + 3 * self.sections + 1 + usize::from(node)]
    }
}

/// The length of the type that `bytes` begin with, which is at most 256.
fn length(bytes: &[u8]) -> Option<usize> {
    let mut owing = 1;
    for (at, byte) in bytes.iter().take(LONGEST).enumerate() {
        match *byte {
            TRUTH | NUMBER => owing -= 1,
            LIST => {}
            PAIR => owing += 1,
            _ => return None,
        }
        if owing == 0 {
            return Some(at + 1);
        }
    }
    None
}

/// The member's type of a list.
fn member(ty: Type) -> Option<Type> {
    ty.strip_prefix(&[LIST])
}

/// The two types of a pair.
fn halves(ty: Type) -> Option<(Type, Type)> {
    let both = ty.strip_prefix(&[PAIR])?;
    Some(both.split_at(length(both)?))
}

struct Check<'a, 't> {
    sheet: &'a Sheet,
    lent: &'a Lent<'t>,
    /// The variables of the scopes that the check is in; a scope is what stands from its base on.
    scope: Vec<Type<'t>>,
    /// The lowest node at fault so far.
    fault: Option<u8>,
}

impl<'t> Check<'_, 't> {
    /// Judges a root, which is to have type `wanted`, and all below it.
    fn root(&mut self, root: u8, scope: &[Type<'t>], wanted: Type) {
        if self.lent.node(root) == wanted {
            self.inner(root, self.scope.len(), scope);
        } else {
            self.blame(root);
        }
    }

    fn blame(&mut self, node: u8) {
        self.fault = Some(self.fault.map_or(node, |lowest| lowest.min(node)));
    }

    /// Judges a node in the scope from `base` on, with more variables.
    fn inner(&mut self, node: u8, base: usize, more: &[Type<'t>]) {
        let end = self.scope.len();
        self.scope.extend(more);
        self.node(node, base);
        self.scope.truncate(end);
    }

    /// Judges a node in the scope from `base` on, and all below it. Below a node at fault nothing is judged: numbers there are higher.
    fn node(&mut self, node: u8, base: usize) {
        if self.fits(node, base).is_none() {
            self.blame(node);
        }
    }

    /// Judges what is below a node, where its type fits its kind, its scope and its children's types.
    fn fits(&mut self, own: u8, base: usize) -> Option<()> {
        let lent = self.lent;
        let ty = lent.node(own);
        let has = |node: u8, wanted: Type| lent.node(node) == wanted;
        let variable = |number: u8| self.scope[base..].get(usize::from(number)).copied();
        match self.sheet.node(own) {
            Node::Variable(number) => require(variable(number) == Some(ty))?,
            Node::False | Node::True => require(ty == [TRUTH])?,
            Node::Empty => require(ty[0] == LIST)?,
            Node::Number(_) | Node::Wide(_) => require(ty == [NUMBER])?,
            Node::Front { first, rest } => {
                require(has(first, member(ty)?) && has(rest, ty))?;
                self.node(first, base);
                self.node(rest, base);
            }
            Node::Pair { left, right } => {
                require((lent.node(left), lent.node(right)) == halves(ty)?)?;
                self.node(left, base);
                self.node(right, base);
            }
            Node::ListCase { subject, empty, front, default_first, default_rest, .. } => {
                let list = lent.node(subject);
                let first = member(list)?;
                require(has(empty, ty) && has(front, ty) && has(default_first, first) && has(default_rest, list))?;
                self.node(subject, base);
                self.node(empty, base);
                self.inner(front, base, &[first, list]);
                // The scope of both is the view alone.
                self.inner(default_first, self.scope.len(), &[ty]);
                self.inner(default_rest, self.scope.len(), &[ty]);
            }
            Node::TruthCase { subject, no, yes, .. } => {
                require(has(subject, &[TRUTH]) && has(no, ty) && has(yes, ty))?;
                self.node(subject, base);
                self.node(no, base);
                self.node(yes, base);
            }
            Node::Split { subject, inner } => {
                let (left, right) = halves(lent.node(subject))?;
                require(has(inner, ty))?;
                self.node(subject, base);
                self.inner(inner, base, &[left, right]);
            }
            Node::Call { section, left, right } => {
                let [first, second, result] = lent.section(section);
                require(variable(left) == Some(first) && variable(right) == Some(second) && ty == result)?;
            }
            Node::Add { node, .. } => {
                require(ty == [NUMBER] && has(node, ty))?;
                self.node(node, base);
            }
            Node::Each(Each { subject, section, variable: second, default }) => {
                let [first, named, result] = lent.section(section);
                require(member(lent.node(subject)) == Some(first) && variable(second) == Some(named))?;
                require(member(ty) == Some(result) && has(default, first))?;
                self.node(subject, base);
                self.inner(default, self.scope.len(), &[]);
            }
        }
        Some(())
    }
}

fn require(holds: bool) -> Option<()> {
    holds.then_some(())
}
