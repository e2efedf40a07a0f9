//! Walking a sheet both ways.
//!
//! Every value of a walk is a span of one arena, the caller's scratch:
//!
//! - the one-byte values `00 01 02`,
//! - the plan,
//! - a slot of 256 bytes for each variable that a put may write,
//! - a stack of values got, built and taken apart. A get leaves its value where it already stands, or as the only thing above the
//!   stack as it found it; a put leaves the stack as it found it.
//!
//! The variables in scope stand on a stack of their own: a scope is the part of it from `base` to `end`, and whoever adds variables
//! does so at `end`.

use crate::sheet::{Each, Node, Sheet};
use crate::value::{self, EMPTY, FALSE, FRONT, LONGEST, NUMBER, PAIR, TRUE, WIDE};
use crate::{Refusal, SCRATCH};

const DEEPEST: u32 = 48;
/// 16 variables of the plan, and two more at each of the 47 levels below the root. (A call on the last level names two more before
/// its section is refused.)
const MOST_VARIABLES: usize = 16 + 2 * 48;

const SLOTS: usize = 3 + 16 * LONGEST;
const STACK: usize = SLOTS + MOST_VARIABLES * LONGEST;

/// A node leaves at most two values on the stack while it enters another: a subject and the list built so far, or two defaults. Below
/// them is the view, above them what is being built.
const _: () = assert!(STACK + (2 * DEEPEST as usize + 2) * LONGEST <= SCRATCH);

/// Where a value stands in the arena.
#[derive(Clone, Copy)]
pub struct Span {
    start: u16,
    len: u16,
}

const FALSE_SPAN: Span = Span { start: FALSE as u16, len: 1 };
const TRUE_SPAN: Span = Span { start: TRUE as u16, len: 1 };
const EMPTY_SPAN: Span = Span { start: EMPTY as u16, len: 1 };

#[derive(Clone, Copy)]
struct Variable {
    value: Span,
    /// The variable's place when it came up; a section's variables have those of the caller's.
    cell: u8,
}

#[derive(Clone, Copy)]
struct Scope {
    base: usize,
    end: usize,
}

pub struct Walk<'a> {
    sheet: &'a Sheet,
    arena: &'a mut [u8; SCRATCH],
    top: usize,
    plan_end: usize,
    variables: [Variable; MOST_VARIABLES],
    /// The length of what a put wrote to each cell; 0 where it wrote nothing.
    written: [u16; MOST_VARIABLES],
    plan_count: usize,
    allowance: u32,
    steps: u32,
}

impl<'a> Walk<'a> {
    pub fn new(sheet: &'a Sheet, arena: &'a mut [u8; SCRATCH], allowance: u32) -> Walk<'a> {
        arena[..3].copy_from_slice(&[FALSE, TRUE, EMPTY]);
        Walk {
            sheet,
            arena,
            top: STACK,
            plan_end: 3,
            variables: [Variable { value: FALSE_SPAN, cell: 0 }; MOST_VARIABLES],
            written: [0; MOST_VARIABLES],
            plan_count: 0,
            allowance,
            steps: 0,
        }
    }

    pub fn add_to_plan(&mut self, value: &[u8]) {
        let start = self.plan_end;
        self.arena[start..start + value.len()].copy_from_slice(value);
        self.plan_end = start + value.len();
        self.variables[self.plan_count] = Variable { value: span(start, value.len()), cell: self.plan_count as u8 };
        self.plan_count += 1;
    }

    pub fn get_root(&mut self) -> Result<Span, Refusal> {
        self.get(self.sheet.root, Scope { base: 0, end: self.plan_count }, 1)
    }

    pub fn put_root(&mut self, view: &[u8]) -> Result<(), Refusal> {
        let view = self.push(view);
        self.put(self.sheet.root, view, Scope { base: 0, end: self.plan_count }, 1)
    }

    pub fn steps(&self) -> u32 {
        self.steps
    }

    pub fn bytes(&self, value: Span) -> &[u8] {
        &self.arena[usize::from(value.start)..usize::from(value.start) + usize::from(value.len)]
    }

    /// What a plan variable stands for after a put.
    pub fn new_value(&self, variable: u8) -> Span {
        self.value_now(usize::from(variable))
    }

    /// Whether a plan variable took a view, its old value or another.
    pub fn took_view(&self, variable: u8) -> bool {
        self.written[usize::from(variable)] > 0
    }

    /// What the variable that came up at `cell` stands for: what was written to it, or else its old value.
    fn value_now(&self, cell: usize) -> Span {
        match self.written[cell] {
            0 => self.variables[cell].value,
            len => Span { start: slot(cell) as u16, len },
        }
    }

    fn kind(&self, value: Span) -> u8 {
        self.arena[usize::from(value.start)]
    }

    fn enter(&mut self, depth: u32) -> Result<(), Refusal> {
        if depth > DEEPEST {
            return Err(40);
        }
        if self.steps == self.allowance {
            return Err(41);
        }
        self.steps += 1;
        Ok(())
    }

    fn variable(&self, number: u8, scope: Scope) -> Result<Variable, Refusal> {
        let place = scope.base + usize::from(number);
        if place < scope.end {
            Ok(self.variables[place])
        } else {
            Err(42)
        }
    }

    fn push(&mut self, bytes: &[u8]) -> Span {
        let start = self.top;
        self.top += bytes.len();
        self.arena[start..self.top].copy_from_slice(bytes);
        span(start, bytes.len())
    }

    fn push_number(&mut self, number: u16) -> Span {
        self.push(&number_bytes(number))
    }

    /// Builds a list with members or a pair on top of the stack.
    fn build(&mut self, kind: u8, left: Span, right: Span) -> Result<Span, Refusal> {
        if kind == FRONT && !value::is_list(self.bytes(right)) {
            return Err(43);
        }
        let (left_len, right_len) = (usize::from(left.len), usize::from(right.len));
        let length = 1 + left_len + right_len;
        if length > LONGEST {
            return Err(44);
        }
        let start = self.top;
        self.arena[start] = kind;
        self.arena.copy_within(usize::from(left.start)..usize::from(left.start) + left_len, start + 1);
        self.arena.copy_within(usize::from(right.start)..usize::from(right.start) + right_len, start + 1 + left_len);
        self.top = start + length;
        Ok(span(start, length))
    }

    /// Takes everything off the stack down to `base`, but keeps `value`.
    fn settle(&mut self, base: usize, value: Span) -> Span {
        let (start, len) = (usize::from(value.start), usize::from(value.len));
        if start < base {
            self.top = base;
            return value;
        }
        if start > base {
            self.arena.copy_within(start..start + len, base);
        }
        self.top = base + len;
        span(base, len)
    }

    /// The two parts of a list with members or of a pair.
    fn parts(&self, value: Span) -> (Span, Span) {
        let left = value::skip(&self.bytes(value)[1..]) as u16;
        (Span { start: value.start + 1, len: left }, Span { start: value.start + 1 + left, len: value.len - 1 - left })
    }

    /// The number that can be added to: one of two bytes.
    fn number(&self, value: Span) -> Option<u16> {
        match self.bytes(value) {
            &[NUMBER, high, low] => Some(u16::from_be_bytes([high, low])),
            _ => None,
        }
    }

    /// The scope with two more variables.
    fn with_two(&mut self, scope: Scope, left: Span, right: Span) -> Scope {
        self.variables[scope.end] = Variable { value: left, cell: scope.end as u8 };
        self.variables[scope.end + 1] = Variable { value: right, cell: scope.end as u8 + 1 };
        Scope { base: scope.base, end: scope.end + 2 }
    }

    /// The scope of a section.
    fn called(&mut self, scope: Scope, left: u8, right: u8) -> Result<Scope, Refusal> {
        let left = self.variable(left, scope)?;
        let right = self.variable(right, scope)?;
        self.variables[scope.end] = left;
        self.variables[scope.end + 1] = right;
        Ok(Scope { base: scope.end, end: scope.end + 2 })
    }

    /// The scope of a section that is entered for a member of a list: the member is a new variable, the other is the caller's.
    fn with_member(&mut self, scope: Scope, member: Span, callers: Variable) -> Scope {
        self.variables[scope.end] = Variable { value: member, cell: scope.end as u8 };
        self.variables[scope.end + 1] = callers;
        Scope { base: scope.end, end: scope.end + 2 }
    }

    fn get(&mut self, node: u8, scope: Scope, depth: u32) -> Result<Span, Refusal> {
        self.enter(depth)?;
        let base = self.top;
        match self.sheet.node(node) {
            Node::Variable(number) => Ok(self.variable(number, scope)?.value),
            Node::False => Ok(FALSE_SPAN),
            Node::True => Ok(TRUE_SPAN),
            Node::Empty => Ok(EMPTY_SPAN),
            Node::Number(number) => Ok(self.push_number(number)),
            Node::Wide(number) => Ok(self.push(&wide_bytes(number))),
            Node::Front { first, rest } => {
                let first = self.get(first, scope, depth + 1)?;
                let rest = self.get(rest, scope, depth + 1)?;
                let list = self.build(FRONT, first, rest)?;
                Ok(self.settle(base, list))
            }
            Node::Pair { left, right } => {
                let left = self.get(left, scope, depth + 1)?;
                let right = self.get(right, scope, depth + 1)?;
                let pair = self.build(PAIR, left, right)?;
                Ok(self.settle(base, pair))
            }
            Node::ListCase { subject, empty, empty_test, front, front_test, .. } => {
                let subject = self.get(subject, scope, depth + 1)?;
                let (branch, test, inner) = match self.kind(subject) {
                    EMPTY => (empty, empty_test, scope),
                    FRONT => {
                        let (first, rest) = self.parts(subject);
                        (front, front_test, self.with_two(scope, first, rest))
                    }
                    _ => return Err(43),
                };
                self.get_branch(branch, test, inner, depth, base)
            }
            Node::TruthCase { subject, no, no_test, yes, yes_test } => {
                let subject = self.get(subject, scope, depth + 1)?;
                let (branch, test) = match self.kind(subject) {
                    FALSE => (no, no_test),
                    TRUE => (yes, yes_test),
                    _ => return Err(43),
                };
                self.get_branch(branch, test, scope, depth, base)
            }
            Node::Split { subject, inner } => {
                let subject = self.get(subject, scope, depth + 1)?;
                if self.kind(subject) != PAIR {
                    return Err(43);
                }
                let (left, right) = self.parts(subject);
                let scope = self.with_two(scope, left, right);
                let value = self.get(inner, scope, depth + 1)?;
                Ok(self.settle(base, value))
            }
            Node::Call { section, left, right } => {
                let scope = self.called(scope, left, right)?;
                self.get(self.sheet.section(section), scope, depth + 1)
            }
            Node::Add { node, amount } => {
                let value = self.get(node, scope, depth + 1)?;
                let number = self.number(value).ok_or(43)?;
                let sum = number.checked_add(amount).ok_or(45)?;
                self.top = base;
                Ok(self.push_number(sum))
            }
            Node::Each(each) => {
                let (list, callers) = self.each_over(each, scope, depth)?;
                let results = self.get_each(each, list, callers, scope, depth)?;
                Ok(self.settle(base, results))
            }
        }
    }

    fn get_branch(&mut self, branch: u8, test: u8, scope: Scope, depth: u32, base: usize) -> Result<Span, Refusal> {
        let value = self.get(branch, scope, depth + 1)?;
        if !value::passes(test, self.bytes(value)) {
            return Err(46);
        }
        Ok(self.settle(base, value))
    }

    /// The list whose members an each goes through, and the caller's variable that its section has as variable 1.
    fn each_over(&mut self, each: Each, scope: Scope, depth: u32) -> Result<(Span, Variable), Refusal> {
        let list = self.get(each.subject, scope, depth + 1)?;
        if !value::is_list(self.bytes(list)) {
            return Err(43);
        }
        Ok((list, self.variable(each.variable, scope)?))
    }

    /// The list of what the section gives for each member.
    fn get_each(&mut self, each: Each, list: Span, callers: Variable, scope: Scope, depth: u32) -> Result<Span, Refusal> {
        let root = self.sheet.section(each.section);
        let start = self.top;
        let mut left = list;
        while self.kind(left) == FRONT {
            let (member, rest) = self.parts(left);
            let within = self.with_member(scope, member, callers);
            // The result's `03` goes in front of it.
            let end = self.top;
            self.top = end + 1;
            let result = self.get(root, within, depth + 1)?;
            self.append(start, end, result)?;
            left = rest;
        }
        Ok(self.end_list(start))
    }

    /// Adds a member to the list that is built from `start` and has come to `end`, if it then fits with the `02` that would end it.
    fn append(&mut self, start: usize, end: usize, member: Span) -> Result<(), Refusal> {
        let (from, len) = (usize::from(member.start), usize::from(member.len));
        let to = end + 1;
        if to + len + 1 - start > LONGEST {
            return Err(44);
        }
        self.arena[end] = FRONT;
        if from != to {
            self.arena.copy_within(from..from + len, to);
        }
        self.top = to + len;
        Ok(())
    }

    /// Ends the list that is built from `start` to the top of the stack.
    fn end_list(&mut self, start: usize) -> Span {
        self.push(&[EMPTY]);
        span(start, self.top - start)
    }

    fn put(&mut self, node: u8, view: Span, scope: Scope, depth: u32) -> Result<(), Refusal> {
        self.enter(depth)?;
        let base = self.top;
        match self.sheet.node(node) {
            Node::Variable(number) => {
                let variable = self.variable(number, scope)?;
                return self.write(usize::from(variable.cell), view);
            }
            Node::False => return self.same(view, &[FALSE]),
            Node::True => return self.same(view, &[TRUE]),
            Node::Empty => return self.same(view, &[EMPTY]),
            Node::Number(number) => return self.same(view, &number_bytes(number)),
            Node::Wide(number) => return self.same(view, &wide_bytes(number)),
            Node::Front { first, rest } => return self.put_parts(FRONT, first, rest, view, scope, depth),
            Node::Pair { left, right } => return self.put_parts(PAIR, left, right, view, scope, depth),
            Node::ListCase { subject, empty, empty_test, front, front_test, default_first, default_rest } => {
                let old = self.get(subject, scope, depth + 1)?;
                let was_front = match self.kind(old) {
                    EMPTY => false,
                    FRONT => true,
                    _ => return Err(43),
                };
                let rebuilt = if self.second_branch(was_front, empty_test, front_test, view)? {
                    let (first, rest) =
                        if was_front { self.parts(old) } else { self.defaults(default_first, default_rest, view, scope, depth)? };
                    self.put_inner(FRONT, front, view, scope, first, rest, depth)?
                } else {
                    self.put(empty, view, scope, depth + 1)?;
                    EMPTY_SPAN
                };
                let rebuilt = self.settle(base, rebuilt);
                self.put(subject, rebuilt, scope, depth + 1)?;
            }
            Node::TruthCase { subject, no, no_test, yes, yes_test } => {
                let old = self.get(subject, scope, depth + 1)?;
                let was_true = match self.kind(old) {
                    FALSE => false,
                    TRUE => true,
                    _ => return Err(43),
                };
                let rebuilt = if self.second_branch(was_true, no_test, yes_test, view)? {
                    self.put(yes, view, scope, depth + 1)?;
                    TRUE_SPAN
                } else {
                    self.put(no, view, scope, depth + 1)?;
                    FALSE_SPAN
                };
                let rebuilt = self.settle(base, rebuilt);
                self.put(subject, rebuilt, scope, depth + 1)?;
            }
            Node::Split { subject, inner } => {
                let old = self.get(subject, scope, depth + 1)?;
                if self.kind(old) != PAIR {
                    return Err(43);
                }
                let (left, right) = self.parts(old);
                let rebuilt = self.put_inner(PAIR, inner, view, scope, left, right, depth)?;
                let rebuilt = self.settle(base, rebuilt);
                self.put(subject, rebuilt, scope, depth + 1)?;
            }
            Node::Call { section, left, right } => {
                let scope = self.called(scope, left, right)?;
                return self.put(self.sheet.section(section), view, scope, depth + 1);
            }
            Node::Add { node, amount } => {
                let number = self.number(view).ok_or(51)?;
                let difference = number.checked_sub(amount).ok_or(52)?;
                let difference = self.push_number(difference);
                self.put(node, difference, scope, depth + 1)?;
            }
            Node::Each(each) => {
                if !value::is_list(self.bytes(view)) {
                    return Err(51);
                }
                let (old, callers) = self.each_over(each, scope, depth)?;
                let rebuilt = self.put_each(each, view, old, callers, scope, depth)?;
                let rebuilt = self.settle(base, rebuilt);
                self.put(each.subject, rebuilt, scope, depth + 1)?;
            }
        }
        self.top = base;
        Ok(())
    }

    fn write(&mut self, cell: usize, view: Span) -> Result<(), Refusal> {
        if self.written[cell] > 0 {
            let same = self.bytes(self.value_now(cell)) == self.bytes(view);
            return if same { Ok(()) } else { Err(54) };
        }
        self.arena.copy_within(usize::from(view.start)..usize::from(view.start) + usize::from(view.len), slot(cell));
        self.written[cell] = view.len;
        Ok(())
    }

    fn same(&self, view: Span, constant: &[u8]) -> Result<(), Refusal> {
        if self.bytes(view) == constant {
            Ok(())
        } else {
            Err(50)
        }
    }

    fn put_parts(&mut self, kind: u8, left: u8, right: u8, view: Span, scope: Scope, depth: u32) -> Result<(), Refusal> {
        if self.kind(view) != kind {
            return Err(51);
        }
        let (left_view, right_view) = self.parts(view);
        self.put(left, left_view, scope, depth + 1)?;
        self.put(right, right_view, scope, depth + 1)
    }

    /// Which branch of a case takes the view: the one the old subject fits if its test says yes, or else the other.
    fn second_branch(&self, was_second: bool, first_test: u8, second_test: u8, view: Span) -> Result<bool, Refusal> {
        let (kept, other) = if was_second { (second_test, first_test) } else { (first_test, second_test) };
        let view = self.bytes(view);
        if value::passes(kept, view) {
            Ok(was_second)
        } else if value::passes(other, view) {
            Ok(!was_second)
        } else {
            Err(53)
        }
    }

    /// What first and rest stand for after a switch to the branch that has them. Both nodes are got with the view alone in scope.
    fn defaults(&mut self, first: u8, rest: u8, view: Span, scope: Scope, depth: u32) -> Result<(Span, Span), Refusal> {
        self.variables[scope.end] = Variable { value: view, cell: scope.end as u8 };
        let sent = Scope { base: scope.end, end: scope.end + 1 };
        let first = self.get(first, sent, depth + 1)?;
        let rest = self.get(rest, sent, depth + 1)?;
        if value::is_list(self.bytes(rest)) {
            Ok((first, rest))
        } else {
            Err(43)
        }
    }

    /// Puts a view into a branch with two variables more and rebuilds the subject from them.
    #[allow(clippy::too_many_arguments)]
    fn put_inner(
        &mut self,
        kind: u8,
        inner: u8,
        view: Span,
        scope: Scope,
        left: Span,
        right: Span,
        depth: u32,
    ) -> Result<Span, Refusal> {
        let within = self.with_two(scope, left, right);
        self.written[scope.end] = 0;
        self.written[scope.end + 1] = 0;
        self.put(inner, view, within, depth + 1)?;
        let (left, right) = (self.value_now(scope.end), self.value_now(scope.end + 1));
        self.build(kind, left, right)
    }

    /// Puts each member of a list into the section and rebuilds the old list from what its variable 0 then stands for.
    fn put_each(
        &mut self,
        each: Each,
        view: Span,
        old: Span,
        callers: Variable,
        scope: Scope,
        depth: u32,
    ) -> Result<Span, Refusal> {
        let root = self.sheet.section(each.section);
        let start = self.top;
        let (mut views, mut olds) = (view, old);
        while self.kind(views) == FRONT {
            let (view, rest) = self.parts(views);
            views = rest;
            let member = if self.kind(olds) == FRONT {
                let (member, rest) = self.parts(olds);
                olds = rest;
                member
            } else {
                self.default_member(each.default, scope, depth)?
            };
            let within = self.with_member(scope, member, callers);
            self.written[scope.end] = 0;
            self.put(root, view, within, depth + 1)?;
            self.append(start, self.top, self.value_now(scope.end))?;
        }
        Ok(self.end_list(start))
    }

    /// What a member past the old end stands for. It is kept in the slot of the section's variable 1, which is the caller's and has
    /// its slot there.
    fn default_member(&mut self, default: u8, scope: Scope, depth: u32) -> Result<Span, Refusal> {
        let base = self.top;
        let member = self.get(default, Scope { base: scope.end, end: scope.end }, depth + 1)?;
        self.top = base;
        let (from, len) = (usize::from(member.start), usize::from(member.len));
        let to = slot(scope.end + 1);
        self.arena.copy_within(from..from + len, to);
        Ok(span(to, len))
    }
}

fn number_bytes(number: u16) -> [u8; 3] {
    let [high, low] = number.to_be_bytes();
    [NUMBER, high, low]
}

fn wide_bytes(number: u32) -> [u8; 5] {
    let [a, b, c, d] = number.to_be_bytes();
    [WIDE, a, b, c, d]
}

fn slot(cell: usize) -> usize {
    SLOTS + cell * LONGEST
}

fn span(start: usize, len: usize) -> Span {
    Span { start: start as u16, len: len as u16 }
}
