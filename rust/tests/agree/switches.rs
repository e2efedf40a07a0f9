//! Puts in which a list case switches to its branch with members, so that its defaults are got.

use crate::sheets::records;
use reference::answer::taken;
use reference::job::Job;
use reference::PUT_OUT;

/// Whether the put of a job gets defaults, and its sheet has one that names a variable. `scratch` is lent to the reference.
pub fn takes_after(job: &Job, scratch: &mut [u8]) -> bool {
    let records = records(&job.sheet);
    job.view.is_some() && names_variable(&records) && gets_defaults(job, &records, scratch)
}

fn is_node(record: &[u8]) -> bool {
    (0x10..=0x1D).contains(&record[0])
}

/// Whether a default of a list case names a variable, itself or in a node below it.
fn names_variable(records: &[&[u8]]) -> bool {
    let nodes: Vec<&[u8]> = records.iter().copied().filter(|record| is_node(record)).collect();
    // A node names only later ones.
    let mut names = vec![false; nodes.len()];
    for (own, node) in nodes.iter().enumerate().rev() {
        let below: &[usize] = match node[0] {
            0x15 | 0x16 | 0x19 => &[1, 2],
            0x17 | 0x18 => &[1, 2, 4],
            0x1B => &[1],
            _ => &[],
        };
        names[own] = matches!(node[0], 0x10 | 0x1A | 0x1C) || below.iter().any(|&at| named(&names, node, at));
    }
    nodes.iter().any(|node| node[0] == 0x17 && (named(&names, node, 6) || named(&names, node, 7)))
}

fn named(names: &[bool], node: &[u8], at: usize) -> bool {
    node.get(at).is_some_and(|&node| names.get(usize::from(node)) == Some(&true))
}

/// Whether a default is got: the answer follows what stands in the defaults' place, a variable out of scope or a sum over 65,535.
fn gets_defaults(job: &Job, records: &[&[u8]], scratch: &mut [u8]) -> bool {
    let first_free = records.iter().filter(|record| is_node(record)).count();
    let instead: [(&[u8], u8); 2] = [(&[0x10, 0xFF], 42), (&[0x1B, first_free as u8 + 1, 0xFF, 0xFF, 0x14, 0xFF, 0xFF], 45)];
    first_free + 2 <= 200
        && instead.into_iter().all(|(nodes, refusal)| {
            let mut sheet = Vec::new();
            for record in records {
                sheet.extend_from_slice(record);
                if let &[0x17, .., _, _] = record {
                    let end = sheet.len();
                    sheet[end - 2..].fill(first_free as u8);
                }
            }
            sheet.extend(nodes);
            let job = Job { sheet, ..job.clone() };
            taken(job.run(&mut [0; PUT_OUT], scratch)) == Err(refusal)
        })
}
