//! The records of a sheet with their nodes under other numbers, by the repository's table of kinds.

use crate::random::Random;
use crate::sheets::records;
use std::collections::HashMap;
use std::sync::LazyLock;

/// Where a record of a kind has bytes that are nodes.
pub fn node_places(kind: u8) -> &'static [usize] {
    static PLACES: LazyLock<HashMap<u8, Vec<usize>>> = LazyLock::new(|| {
        let table = include_str!("../../../tables/kinds.txt");
        table.lines().filter(|line| !line.starts_with('#') && !line.is_empty()).map(row).collect()
    });
    PLACES.get(&kind).map_or(&[], |places| &places[..])
}

/// The kind of a line of the table, and where its nodes stand.
fn row(line: &str) -> (u8, Vec<usize>) {
    let cells: Vec<&str> = line.split('|').map(str::trim).collect();
    let mut places = Vec::new();
    let mut at = 1;
    for field in cells[3].split(", ").filter(|&field| field != "-") {
        // A field has a letter for each of its bytes.
        let (role, letters) = field.split_once(' ').unwrap();
        if role == "node" {
            places.push(at);
        }
        at += letters.split(' ').count();
    }
    (u8::from_str_radix(cells[0], 16).unwrap(), places)
}

/// A sheet's records before its nodes, and its nodes.
pub fn parts(sheet: &[u8]) -> (Vec<Vec<u8>>, Vec<Vec<u8>>) {
    records(sheet).into_iter().map(<[u8]>::to_vec).partition(|record| !(0x10..0x20).contains(&record[0]))
}

/// The sheet with its nodes in another order in which each stands before its children, where its numbers are in range; some nodes that
/// nobody uses are added.
pub fn shuffled(random: &mut Random, sheet: &[u8]) -> Vec<u8> {
    let (mut head, mut nodes) = parts(sheet);
    for _ in 0..random.pick(&[0, 0, 1, 3]) {
        if nodes.len() < 200 {
            nodes.push(random.pick(&[&[0x10, 0][..], &[0x11], &[0x13], &[0x14, 0, 7]]).to_vec());
        }
    }
    let uses = |node: &[u8]| node_places(node[0]).iter().filter_map(|&at| node.get(at)).map(|&child| usize::from(child)).collect();
    let children: Vec<Vec<usize>> = nodes.iter().map(|node| uses(node)).collect();
    if children.iter().enumerate().any(|(own, children)| children.iter().any(|&child| child <= own || child >= nodes.len())) {
        return sheet.to_vec();
    }
    // How many uses of each node are still to be placed before it.
    let mut before = vec![0; nodes.len()];
    children.iter().flatten().for_each(|&child| before[child] += 1);
    let mut ready: Vec<usize> = (0..nodes.len()).filter(|&node| before[node] == 0).collect();
    let (mut order, mut number) = (Vec::new(), vec![0; nodes.len()]);
    while !ready.is_empty() {
        let node = ready.swap_remove(random.below(ready.len()));
        number[node] = order.len() as u8;
        order.push(node);
        for &child in &children[node] {
            before[child] -= 1;
            if before[child] == 0 {
                ready.push(child);
            }
        }
    }
    let renumber = |record: &mut Vec<u8>| {
        for &at in node_places(record[0]) {
            if let Some(node) = record.get_mut(at) {
                *node = number.get(usize::from(*node)).copied().unwrap_or(*node);
            }
        }
    };
    head.iter_mut().chain(&mut nodes).for_each(renumber);
    [head.concat(), order.into_iter().flat_map(|node| nodes[node].clone()).collect()].concat()
}

/// One use of a node becomes a use of another: a later one, of a root any.
pub fn redirect(random: &mut Random, sheet: &mut [u8]) {
    let count = parts(sheet).1.len();
    let mut uses = Vec::new();
    let (mut start, mut own) = (0, 0);
    for record in records(sheet) {
        let node = (0x10..0x20).contains(&record[0]);
        let least = if node { own + 1 } else { 0 };
        uses.extend(node_places(record[0]).iter().filter(|&&at| at < record.len()).map(|at| (start + at, least)));
        start += record.len();
        own += usize::from(node);
    }
    if uses.is_empty() {
        return;
    }
    let (at, least) = random.pick(&uses);
    if least < count {
        sheet[at] = random.of(least..count) as u8;
    }
}
