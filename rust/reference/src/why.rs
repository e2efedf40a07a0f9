//! Why a get or a put is refused (document 02, request 9): a walk that keeps the nodes it is in, and with what is written who wrote it.
//!
//! It is a walk of its own beside `walk`, for the sake of being plain: its values are bytes that it owns, and a variable is shared
//! between scopes by being counted.

use crate::sheet::{Each, Node, Sheet};
use crate::value::{self, EMPTY, FALSE, FRONT, LONGEST, NUMBER, PAIR, TRUE, WIDE};
use crate::{plan, Refusal};
use std::cell::RefCell;
use std::rc::Rc;

const DEEPEST: usize = 48;

/// Why a call is refused.
#[derive(Clone, Debug, PartialEq, Eq)]
pub struct Explanation {
    pub refusal: Refusal,
    /// The nodes from the root down to the one where it was met; none where it was met before the walk.
    pub chain: Vec<u8>,
    /// For 54, the node that wrote the variable first.
    pub first: Option<u8>,
}

impl Explanation {
    /// A refusal from before the walk.
    pub fn early(refusal: Refusal) -> Explanation {
        Explanation { refusal, chain: Vec::new(), first: None }
    }

    /// What the program `tools` prints, without the line feed: the number; of a walk the node, its depth and the chain; the first writer.
    pub fn line(&self) -> String {
        let mut words = vec!["no".to_string(), self.refusal.to_string()];
        if let Some(node) = self.chain.last() {
            words.extend([node.to_string(), self.chain.len().to_string()]);
            words.extend(self.chain.iter().map(u8::to_string));
        }
        if let Some(first) = self.first {
            words.extend(["by".to_string(), first.to_string()]);
        }
        words.join(" ")
    }
}

/// Why the get or, where there is a view, the put behind the door is refused.
pub fn explain(sheet: &[u8], plan: &[u8], view: Option<&[u8]>, allowance: u32) -> Result<(), Explanation> {
    let sheet = Sheet::read(sheet).map_err(Explanation::early)?;
    let mut scope = Vec::new();
    plan::read(sheet.k, plan, |_, value| scope.push(Variable::new(value))).map_err(Explanation::early)?;
    let mut walk = Explained { sheet: &sheet, left: allowance, path: Vec::new(), first: None };
    let met = match view {
        None => walk.get(sheet.root, &scope).map(drop),
        Some(view) => {
            crate::one_value(view).map_err(Explanation::early)?;
            walk.put(sheet.root, view, &scope)
        }
    };
    met.map_err(|refusal| Explanation { refusal, chain: walk.path, first: walk.first })
}

type Value = Vec<u8>;

struct Written {
    value: Value,
    by: u8,
}

/// What it stood for on entry, and what was written to it since. A section's variables are the caller's.
#[derive(Clone)]
struct Variable {
    old: Value,
    written: Rc<RefCell<Option<Written>>>,
}

impl Variable {
    fn new(value: &[u8]) -> Variable {
        Variable { old: value.to_vec(), written: Rc::new(RefCell::new(None)) }
    }

    fn now(&self) -> Value {
        self.written.borrow().as_ref().map_or_else(|| self.old.clone(), |written| written.value.clone())
    }
}

struct Explained<'a> {
    sheet: &'a Sheet,
    left: u32,
    /// The nodes that the walk is in. A refusal leaves them as they are.
    path: Vec<u8>,
    first: Option<u8>,
}

impl Explained<'_> {
    fn enter(&mut self, node: u8) -> Result<Node, Refusal> {
        self.path.push(node);
        if self.path.len() > DEEPEST {
            return Err(40);
        }
        self.left = self.left.checked_sub(1).ok_or(41)?;
        Ok(self.sheet.node(node))
    }

    fn get(&mut self, node: u8, scope: &[Variable]) -> Result<Value, Refusal> {
        let value = match self.enter(node)? {
            Node::Variable(number) => variable(scope, number)?.old.clone(),
            Node::False => vec![FALSE],
            Node::True => vec![TRUE],
            Node::Empty => vec![EMPTY],
            Node::Number(number) => number_value(number),
            Node::Wide(number) => wide_value(number),
            Node::Front { first, rest } => {
                let first = self.get(first, scope)?;
                let rest = self.get(rest, scope)?;
                front(&first, &rest)?
            }
            Node::Pair { left, right } => {
                let left = self.get(left, scope)?;
                let right = self.get(right, scope)?;
                built(PAIR, &left, &right)?
            }
            Node::ListCase { subject, empty, empty_test, front, front_test, .. } => {
                let subject = self.get(subject, scope)?;
                match subject[0] {
                    EMPTY => self.get_branch(empty, empty_test, scope)?,
                    FRONT => self.get_branch(front, front_test, &with_parts(scope, &subject))?,
                    _ => return Err(43),
                }
            }
            Node::TruthCase { subject, no, no_test, yes, yes_test } => match self.get(subject, scope)?[0] {
                FALSE => self.get_branch(no, no_test, scope)?,
                TRUE => self.get_branch(yes, yes_test, scope)?,
                _ => return Err(43),
            },
            Node::Split { subject, inner } => {
                let subject = self.get(subject, scope)?;
                judge(subject[0] == PAIR, 43)?;
                self.get(inner, &with_parts(scope, &subject))?
            }
            Node::Call { section, left, right } => {
                let scope = [variable(scope, left)?.clone(), variable(scope, right)?.clone()];
                self.get(self.sheet.section(section), &scope)?
            }
            Node::Add { node, amount } => {
                let number = number(&self.get(node, scope)?).ok_or(43)?;
                number_value(number.checked_add(amount).ok_or(45)?)
            }
            Node::Each(each) => {
                let (members, callers) = self.members(each, scope)?;
                let mut results = Vec::new();
                for member in members {
                    let scope = [Variable::new(&member), callers.clone()];
                    results.push(self.get(self.sheet.section(each.section), &scope)?);
                    judge(list(&results).len() <= LONGEST, 44)?;
                }
                list(&results)
            }
        };
        self.path.pop();
        Ok(value)
    }

    fn get_branch(&mut self, branch: u8, test: u8, scope: &[Variable]) -> Result<Value, Refusal> {
        let value = self.get(branch, scope)?;
        judge(value::passes(test, &value), 46)?;
        Ok(value)
    }

    /// The members that an each goes through, and the caller's variable that its section has too.
    fn members(&mut self, each: Each, scope: &[Variable]) -> Result<(Vec<Value>, Variable), Refusal> {
        let subject = self.get(each.subject, scope)?;
        judge(value::is_list(&subject), 43)?;
        Ok((members_of(&subject), variable(scope, each.variable)?.clone()))
    }

    fn put(&mut self, node: u8, view: &[u8], scope: &[Variable]) -> Result<(), Refusal> {
        match self.enter(node)? {
            Node::Variable(number) => self.write(node, view, variable(scope, number)?)?,
            Node::False => judge(view == [FALSE], 50)?,
            Node::True => judge(view == [TRUE], 50)?,
            Node::Empty => judge(view == [EMPTY], 50)?,
            Node::Number(number) => judge(view == number_value(number), 50)?,
            Node::Wide(number) => judge(view == wide_value(number), 50)?,
            Node::Front { first, rest } => self.put_parts(FRONT, first, rest, view, scope)?,
            Node::Pair { left, right } => self.put_parts(PAIR, left, right, view, scope)?,
            Node::ListCase { subject, empty, empty_test, front: branch, front_test, default_first, default_rest } => {
                let old = self.get(subject, scope)?;
                judge(value::is_list(&old), 43)?;
                let rebuilt = if takes_second(old[0] == FRONT, empty_test, front_test, view)? {
                    let inner = if old[0] == FRONT {
                        with_parts(scope, &old)
                    } else {
                        let sent = [Variable::new(view)];
                        let first = self.get(default_first, &sent)?;
                        let rest = self.get(default_rest, &sent)?;
                        judge(value::is_list(&rest), 43)?;
                        with_two(scope, &first, &rest)
                    };
                    self.put(branch, view, &inner)?;
                    front(&inner[scope.len()].now(), &inner[scope.len() + 1].now())?
                } else {
                    self.put(empty, view, scope)?;
                    vec![EMPTY]
                };
                self.put(subject, &rebuilt, scope)?;
            }
            Node::TruthCase { subject, no, no_test, yes, yes_test } => {
                let old = self.get(subject, scope)?;
                judge(matches!(old[0], FALSE | TRUE), 43)?;
                let rebuilt = if takes_second(old[0] == TRUE, no_test, yes_test, view)? {
                    self.put(yes, view, scope)?;
                    [TRUE]
                } else {
                    self.put(no, view, scope)?;
                    [FALSE]
                };
                self.put(subject, &rebuilt, scope)?;
            }
            Node::Split { subject, inner } => {
                let old = self.get(subject, scope)?;
                judge(old[0] == PAIR, 43)?;
                let within = with_parts(scope, &old);
                self.put(inner, view, &within)?;
                let rebuilt = built(PAIR, &within[scope.len()].now(), &within[scope.len() + 1].now())?;
                self.put(subject, &rebuilt, scope)?;
            }
            Node::Call { section, left, right } => {
                let scope = [variable(scope, left)?.clone(), variable(scope, right)?.clone()];
                self.put(self.sheet.section(section), view, &scope)?;
            }
            Node::Add { node, amount } => {
                let difference = number(view).ok_or(51)?.checked_sub(amount).ok_or(52)?;
                self.put(node, &number_value(difference), scope)?;
            }
            Node::Each(each) => {
                judge(value::is_list(view), 51)?;
                let (old, callers) = self.members(each, scope)?;
                let mut old = old.into_iter();
                let mut rebuilt = Vec::new();
                for view in members_of(view) {
                    let member = match old.next() {
                        Some(member) => member,
                        None => self.get(each.default, &[])?,
                    };
                    let scope = [Variable::new(&member), callers.clone()];
                    self.put(self.sheet.section(each.section), &view, &scope)?;
                    rebuilt.push(scope[0].now());
                    judge(list(&rebuilt).len() <= LONGEST, 44)?;
                }
                self.put(each.subject, &list(&rebuilt), scope)?;
            }
        }
        self.path.pop();
        Ok(())
    }

    fn write(&mut self, node: u8, view: &[u8], variable: &Variable) -> Result<(), Refusal> {
        let mut written = variable.written.borrow_mut();
        match &*written {
            Some(first) if first.value != view => {
                self.first = Some(first.by);
                return Err(54);
            }
            Some(_) => {}
            None => *written = Some(Written { value: view.to_vec(), by: node }),
        }
        Ok(())
    }

    fn put_parts(&mut self, kind: u8, left: u8, right: u8, view: &[u8], scope: &[Variable]) -> Result<(), Refusal> {
        judge(view[0] == kind, 51)?;
        let (left_view, right_view) = parts(view);
        self.put(left, left_view, scope)?;
        self.put(right, right_view, scope)
    }
}

fn judge(holds: bool, refusal: Refusal) -> Result<(), Refusal> {
    if holds {
        Ok(())
    } else {
        Err(refusal)
    }
}

fn variable(scope: &[Variable], number: u8) -> Result<&Variable, Refusal> {
    scope.get(usize::from(number)).ok_or(42)
}

/// Whether the second branch of a case takes the view: the one the old subject fits if its test says yes, or else the other.
fn takes_second(was_second: bool, first_test: u8, second_test: u8, view: &[u8]) -> Result<bool, Refusal> {
    let (kept, other) = if was_second { (second_test, first_test) } else { (first_test, second_test) };
    if value::passes(kept, view) {
        return Ok(was_second);
    }
    judge(value::passes(other, view), 53)?;
    Ok(!was_second)
}

/// The two parts of a list with members or of a pair.
fn parts(value: &[u8]) -> (&[u8], &[u8]) {
    value[1..].split_at(value::skip(&value[1..]))
}

fn with_parts(scope: &[Variable], value: &[u8]) -> Vec<Variable> {
    let (left, right) = parts(value);
    with_two(scope, left, right)
}

fn with_two(scope: &[Variable], left: &[u8], right: &[u8]) -> Vec<Variable> {
    [scope, &[Variable::new(left), Variable::new(right)]].concat()
}

fn front(first: &[u8], rest: &[u8]) -> Result<Value, Refusal> {
    judge(value::is_list(rest), 43)?;
    built(FRONT, first, rest)
}

fn built(kind: u8, left: &[u8], right: &[u8]) -> Result<Value, Refusal> {
    let value = [&[kind], left, right].concat();
    judge(value.len() <= LONGEST, 44)?;
    Ok(value)
}

fn list(members: &[Value]) -> Value {
    let mut value: Value = members.iter().flat_map(|member| [&[FRONT], &member[..]].concat()).collect();
    value.push(EMPTY);
    value
}

fn members_of(list: &[u8]) -> Vec<Value> {
    let mut members = Vec::new();
    let mut rest = list;
    while rest[0] == FRONT {
        let (member, behind) = parts(rest);
        members.push(member.to_vec());
        rest = behind;
    }
    members
}

/// The number that can be added to: one of two bytes.
fn number(value: &[u8]) -> Option<u16> {
    match value {
        &[NUMBER, high, low] => Some(u16::from_be_bytes([high, low])),
        _ => None,
    }
}

fn number_value(number: u16) -> Value {
    [&[NUMBER][..], &number.to_be_bytes()].concat()
}

fn wide_value(number: u32) -> Value {
    [&[WIDE][..], &number.to_be_bytes()].concat()
}
