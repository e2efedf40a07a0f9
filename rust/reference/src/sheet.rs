//! Sheets: records read and judged.

use crate::value::{wide, LARGEST_NUMBER};
use crate::Refusal;

/// The most sections of a sheet.
pub const MOST_SECTIONS: usize = 8;
/// The most nodes of a sheet.
pub const MOST_NODES: usize = 200;

#[derive(Clone, Copy)]
pub enum Node {
    Variable(u8),
    False,
    True,
    Empty,
    Number(u16),
    Wide(u32),
    Front { first: u8, rest: u8 },
    Pair { left: u8, right: u8 },
    ListCase { subject: u8, empty: u8, empty_test: u8, front: u8, front_test: u8, default_first: u8, default_rest: u8 },
    TruthCase { subject: u8, no: u8, no_test: u8, yes: u8, yes_test: u8 },
    Split { subject: u8, inner: u8 },
    Call { section: u8, left: u8, right: u8 },
    Add { node: u8, amount: u16 },
    Each(Each),
}

/// A section for each member of a list.
#[derive(Clone, Copy)]
pub struct Each {
    pub subject: u8,
    pub section: u8,
    pub variable: u8,
    pub default: u8,
}

pub struct Sheet {
    /// How many values a plan has.
    pub k: u8,
    pub root: u8,
    sections: [u8; MOST_SECTIONS],
    section_count: usize,
    nodes: [Node; MOST_NODES],
    node_count: usize,
}

impl Sheet {
    pub fn read(bytes: &[u8]) -> Result<Sheet, Refusal> {
        let mut sheet = Sheet {
            k: 0,
            root: 0,
            sections: [0; MOST_SECTIONS],
            section_count: 0,
            nodes: [Node::False; MOST_NODES],
            node_count: 0,
        };
        sheet.read_records(bytes)?;
        if sheet.node_count == 0 {
            return Err(14);
        }
        if sheet.in_range() {
            Ok(sheet)
        } else {
            Err(13)
        }
    }

    pub fn node(&self, number: u8) -> Node {
        self.nodes[usize::from(number)]
    }

    pub fn section(&self, number: u8) -> u8 {
        self.sections[usize::from(number)]
    }

    /// The records of its nodes, in node order.
    pub fn nodes(&self) -> &[Node] {
        &self.nodes[..self.node_count]
    }

    /// The roots of its sections, in section order.
    pub fn sections(&self) -> &[u8] {
        &self.sections[..self.section_count]
    }

    fn read_records(&mut self, bytes: &[u8]) -> Result<(), Refusal> {
        let mut at = 0;
        while at < bytes.len() {
            let kind = bytes[at];
            let length = match kind {
                0x01 if at == 0 => 2,
                _ if at == 0 => return Err(10),
                0x20 if self.node_count == 0 => 1,
                0x10 => 1,
                0x11..=0x13 => 0,
                0x14..=0x16 | 0x19 => 2,
                0x17 => 7,
                0x18 => 5,
                0x1A | 0x1B => 3,
                0x1C | 0x1D => 4,
                _ => return Err(10),
            };
            let full = match kind {
                0x01 => false,
                0x20 => self.section_count == MOST_SECTIONS,
                _ => self.node_count == MOST_NODES,
            };
            if full {
                return Err(12);
            }
            let Some(body) = bytes.get(at + 1..at + 1 + length) else {
                return Err(11);
            };
            self.take_record(kind, body);
            at += 1 + length;
        }
        Ok(())
    }

    fn take_record(&mut self, kind: u8, body: &[u8]) {
        let node = match kind {
            0x01 => {
                self.k = body[0];
                self.root = body[1];
                return;
            }
            0x20 => {
                self.sections[self.section_count] = body[0];
                self.section_count += 1;
                return;
            }
            0x10 => Node::Variable(body[0]),
            0x11 => Node::False,
            0x12 => Node::True,
            0x13 => Node::Empty,
            0x14 => Node::Number(u16::from_be_bytes([body[0], body[1]])),
            0x15 => Node::Front { first: body[0], rest: body[1] },
            0x16 => Node::Pair { left: body[0], right: body[1] },
            0x17 => Node::ListCase {
                subject: body[0],
                empty: body[1],
                empty_test: body[2],
                front: body[3],
                front_test: body[4],
                default_first: body[5],
                default_rest: body[6],
            },
            0x18 => Node::TruthCase { subject: body[0], no: body[1], no_test: body[2], yes: body[3], yes_test: body[4] },
            0x19 => Node::Split { subject: body[0], inner: body[1] },
            0x1A => Node::Call { section: body[0], left: body[1], right: body[2] },
            0x1B => Node::Add { node: body[0], amount: u16::from_be_bytes([body[1], body[2]]) },
            0x1C => Node::Each(Each { subject: body[0], section: body[1], variable: body[2], default: body[3] }),
            _ => Node::Wide(wide(body)),
        };
        self.nodes[self.node_count] = node;
        self.node_count += 1;
    }

    /// Whether k and every node, section and test number is in range, and every constant of four bytes. (Variables are judged in the walk.)
    fn in_range(&self) -> bool {
        let node = |number: u8| usize::from(number) < self.node_count;
        (1..=16).contains(&self.k)
            && node(self.root)
            && self.sections[..self.section_count].iter().all(|&root| node(root))
            && (0..self.node_count).all(|own| self.node_in_range(own))
    }

    fn node_in_range(&self, own: usize) -> bool {
        let node = |number: u8| own < usize::from(number) && usize::from(number) < self.node_count;
        let section = |number: u8| usize::from(number) < self.section_count;
        let test = |number: u8| number <= 6;
        match self.nodes[own] {
            Node::Variable(_) | Node::False | Node::True | Node::Empty | Node::Number(_) => true,
            Node::Wide(number) => number > LARGEST_NUMBER,
            Node::Front { first, rest } => node(first) && node(rest),
            Node::Pair { left, right } => node(left) && node(right),
            Node::ListCase { subject, empty, empty_test, front, front_test, default_first, default_rest } => {
                [subject, empty, front, default_first, default_rest].into_iter().all(node) && test(empty_test) && test(front_test)
            }
            Node::TruthCase { subject, no, no_test, yes, yes_test } => {
                [subject, no, yes].into_iter().all(node) && test(no_test) && test(yes_test)
            }
            Node::Split { subject, inner } => node(subject) && node(inner),
            Node::Call { section: called, .. } => section(called),
            Node::Add { node: inner, .. } => node(inner),
            Node::Each(each) => node(each.subject) && section(each.section) && node(each.default),
        }
    }
}
