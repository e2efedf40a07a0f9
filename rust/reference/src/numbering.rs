//! One numbering for a sheet file (document 02, request 12): nodes are numbered as first met.

use crate::answer::{packed, NodeRefusal};
use crate::sheet::{Sheet, MOST_NODES};
use crate::SHEET_OUT;

/// Writes a sheet anew, at the front of `out`: nodes are numbered as first met, and those that are never met are dropped.
pub fn number(sheet: &[u8], out: &mut [u8]) -> u64 {
    packed(numbered(sheet, out))
}

fn numbered(sheet: &[u8], out: &mut [u8]) -> Result<usize, NodeRefusal> {
    if out.len() < SHEET_OUT {
        return Err(1.into());
    }
    let sheet = read_used_once(sheet)?;
    let order = order(&sheet);
    let mut new = [0; MOST_NODES];
    for (number, &old) in order.iter().enumerate() {
        new[usize::from(old)] = number as u8;
    }
    let node = |old: u8| new[usize::from(old)];
    let mut bytes = Vec::with_capacity(SHEET_OUT);
    bytes.extend([0x01, sheet.k, node(sheet.root)]);
    for &root in sheet.sections() {
        bytes.extend([0x20, node(root)]);
    }
    for &old in &order {
        sheet.node(old).write(&mut bytes, node, |section| section);
    }
    out[..bytes.len()].copy_from_slice(&bytes);
    Ok(bytes.len())
}

/// A sheet that uses each node at most once; 81 of another.
pub fn read_used_once(sheet: &[u8]) -> Result<Sheet, NodeRefusal> {
    let sheet = Sheet::read(sheet)?;
    match lowest_used_twice(&sheet) {
        Some(node) => Err(NodeRefusal { refusal: 81, node: Some(node) }),
        None => Ok(sheet),
    }
}

/// The lowest node that is used more than once as a child or a root. Records that are never met use their children too.
pub fn lowest_used_twice(sheet: &Sheet) -> Option<u8> {
    let mut uses = [0_usize; MOST_NODES];
    let mut count = |node: u8| uses[usize::from(node)] += 1;
    count(sheet.root);
    sheet.sections().iter().for_each(|&root| count(root));
    sheet.nodes().iter().for_each(|node| node.for_children(&mut count));
    uses.iter().position(|&uses| uses > 1).map(|node| node as u8)
}

/// The nodes of a sheet that uses each once, as they are first met: a node before its children, each child with all below it before the
/// next, from the main root and then from each section's.
fn order(sheet: &Sheet) -> Vec<u8> {
    let mut order = Vec::with_capacity(sheet.nodes().len());
    // Still to be met, the next one last.
    let mut ahead = Vec::with_capacity(sheet.nodes().len());
    for root in std::iter::once(sheet.root).chain(sheet.sections().iter().copied()) {
        ahead.push(root);
        while let Some(node) = ahead.pop() {
            order.push(node);
            let from = ahead.len();
            sheet.node(node).for_children(|child| ahead.push(child));
            ahead[from..].reverse();
        }
    }
    order
}
