//! How much longer the list can get (document 02, request 14): how often a variable's length counts in the list's.

use crate::answer::{packed, NodeRefusal};
use crate::sheet::{Node, Sheet, MOST_NODES};

/// The largest count that is told.
const LARGEST: u16 = 256;

/// How often a walk from the root enters a node 10 of a variable, every refusal left aside: if that variable's value changes its length by d
/// bytes, and both plans read out, the list's length changes by so many times d.
pub fn growth(sheet: &[u8], variable: usize) -> u64 {
    packed(counted(sheet, variable))
}

fn counted(sheet: &[u8], variable: usize) -> Result<usize, NodeRefusal> {
    let sheet = Sheet::read(sheet)?;
    if !sheet.nodes().iter().all(|&node| is_plain(node)) {
        return Err(87.into());
    }
    if variable >= usize::from(sheet.k) {
        return Err(23.into());
    }
    // The count below each node, from the last, as children stand behind their parents. Every count over 256 is 257.
    let mut counts = [0; MOST_NODES];
    for (own, node) in sheet.nodes().iter().enumerate().rev() {
        let mut count = 0;
        match *node {
            Node::Variable(number) => count = u16::from(usize::from(number) == variable),
            node => node.for_children(|child| count += counts[usize::from(child)]),
        }
        counts[own] = count.min(LARGEST + 1);
    }
    match counts[usize::from(sheet.root)] {
        count if count > LARGEST => Err(88.into()),
        count => Ok(count.into()),
    }
}

/// Whether a node is of one of the kinds 10 to 16, 1B and 1D.
fn is_plain(node: Node) -> bool {
    match node {
        Node::Variable(_) | Node::False | Node::True | Node::Empty | Node::Number(_) | Node::Wide(_) => true,
        Node::Front { .. } | Node::Pair { .. } | Node::Add { .. } => true,
        Node::ListCase { .. } | Node::TruthCase { .. } | Node::Split { .. } | Node::Call { .. } | Node::Each(_) => false,
    }
}
