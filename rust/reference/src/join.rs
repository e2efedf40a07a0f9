//! Two sheets joined into one, whose list is the pair of both (document 02, request 7).

use crate::answer::{packed, NodeRefusal};
use crate::sheet::{Node, Sheet, MOST_NODES, MOST_SECTIONS};
use crate::SHEET_OUT;

/// Joins two sheets, at the front of `out`: node 0 is the pair of both roots, and the first sheet's nodes and sections stand before the
/// second's.
pub fn join(first: &[u8], second: &[u8], out: &mut [u8]) -> u64 {
    packed(joined(first, second, out))
}

fn joined(first: &[u8], second: &[u8], out: &mut [u8]) -> Result<usize, NodeRefusal> {
    if out.len() < SHEET_OUT {
        return Err(1.into());
    }
    let (first, second) = (Sheet::read(first)?, Sheet::read(second)?);
    if first.k != second.k {
        return Err(83.into());
    }
    let nodes = 1 + first.nodes().len() + second.nodes().len();
    if nodes > MOST_NODES || first.sections().len() + second.sections().len() > MOST_SECTIONS {
        return Err(84.into());
    }
    // Each sheet with what is added to its node numbers and to its section numbers.
    let parts = [(&first, 1, 0), (&second, 1 + first.nodes().len() as u8, first.sections().len() as u8)];
    let mut bytes = Vec::with_capacity(SHEET_OUT);
    bytes.extend([0x01, first.k, 0]);
    for (sheet, more, _) in parts {
        sheet.sections().iter().for_each(|root| bytes.extend([0x20, root + more]));
    }
    let [left, right] = parts.map(|(sheet, more, _)| sheet.root + more);
    Node::Pair { left, right }.write(&mut bytes, |node| node, |section| section);
    for (sheet, more, more_sections) in parts {
        sheet.nodes().iter().for_each(|node| node.write(&mut bytes, |node| node + more, |section| section + more_sections));
    }
    out[..bytes.len()].copy_from_slice(&bytes);
    Ok(bytes.len())
}
