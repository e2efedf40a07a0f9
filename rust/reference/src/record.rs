//! Records of nodes: their children, their numbers changed, and their bytes.

use crate::sheet::{Each, Node};

impl Node {
    /// Hands on the nodes that its body names, in body order. (A call names a section, which is no child.)
    pub fn for_children(self, mut take: impl FnMut(u8)) {
        match self {
            Node::Variable(_) | Node::False | Node::True | Node::Empty | Node::Number(_) | Node::Wide(_) | Node::Call { .. } => {}
            Node::Front { first: left, rest: right }
            | Node::Pair { left, right }
            | Node::Split { subject: left, inner: right }
            | Node::Each(Each { subject: left, default: right, .. }) => {
                take(left);
                take(right);
            }
            Node::ListCase { subject, empty, front, default_first, default_rest, .. } => {
                [subject, empty, front, default_first, default_rest].into_iter().for_each(take);
            }
            Node::TruthCase { subject, no, yes, .. } => [subject, no, yes].into_iter().for_each(take),
            Node::Add { node, .. } => take(node),
        }
    }

    /// The record's bytes at the end of `bytes`, where each node and each section has another number.
    pub fn write(self, bytes: &mut Vec<u8>, node: impl Fn(u8) -> u8, section: impl Fn(u8) -> u8) {
        match self {
            Node::Variable(variable) => bytes.extend([0x10, variable]),
            Node::False => bytes.push(0x11),
            Node::True => bytes.push(0x12),
            Node::Empty => bytes.push(0x13),
            Node::Number(number) => {
                bytes.push(0x14);
                bytes.extend(number.to_be_bytes());
            }
            Node::Front { first, rest } => bytes.extend([0x15, node(first), node(rest)]),
            Node::Pair { left, right } => bytes.extend([0x16, node(left), node(right)]),
            Node::ListCase { subject, empty, empty_test, front, front_test, default_first, default_rest } => {
                bytes.extend([0x17, node(subject), node(empty), empty_test, node(front), front_test]);
                bytes.extend([node(default_first), node(default_rest)]);
            }
            Node::TruthCase { subject, no, no_test, yes, yes_test } => {
                bytes.extend([0x18, node(subject), node(no), no_test, node(yes), yes_test]);
            }
            Node::Split { subject, inner } => bytes.extend([0x19, node(subject), node(inner)]),
            Node::Call { section: called, left, right } => bytes.extend([0x1A, section(called), left, right]),
            Node::Add { node: inner, amount } => {
                bytes.extend([0x1B, node(inner)]);
                bytes.extend(amount.to_be_bytes());
            }
            Node::Each(each) => {
                bytes.extend([0x1C, node(each.subject), section(each.section), each.variable, node(each.default)]);
            }
            Node::Wide(number) => {
                bytes.push(0x1D);
                bytes.extend(number.to_be_bytes());
            }
        }
    }
}
