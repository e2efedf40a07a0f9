//! Jobs at the limits of document 01, which random ones seldom meet: the 48th level, the 256th byte, the last section and node; and numbers
//! about 65,536, the least of four bytes; and list cases whose defaults take after the view.

use crate::random::Random;
use crate::sent::sent;
use crate::values::{damage, Value};
use reference::job::Job;

/// Document 01's sheet J, which joins two lists.
pub const JOIN: [u8; 32] = [
    0x01, 0x02, 0x00, 0x20, 0x01, 0x1A, 0x00, 0x00, 0x01, 0x17, 0x02, 0x03, 0x00, 0x04, 0x02, 0x07, 0x08, 0x10, 0x00, 0x10, 0x01,
    0x15, 0x05, 0x06, 0x10, 0x02, 0x1A, 0x00, 0x03, 0x01, 0x11, 0x13,
];

pub fn edge(random: &mut Random) -> Job {
    match random.below(22) {
        0 | 1 => chain(random),
        2 => join(random),
        3 => long(random),
        4..=6 => switch(random),
        7..=9 => each(random),
        10 => nest(random),
        11 | 12 => prices(random),
        13 | 14 => ending(random),
        15..=20 => sent(random),
        _ => full(random),
    }
}

/// A chain of nodes down to about the 48th level.
fn chain(random: &mut Random) -> Job {
    let length = random.of(42..52);
    let end = length as u8;
    let mut sheet = vec![0x01, 0x01, 0x00, 0x20, end];
    let kind = random.pick(&[0x15, 0x16, 0x17, 0x18, 0x19, 0x1B, 0x1C, 0x00]);
    for own in 0..length {
        let next = own as u8 + 1;
        // The leaves behind the chain: end the variable, then False, True, an empty list, a number, a pair.
        let record: &[u8] = match if kind == 0 { random.pick(&[0x15, 0x16, 0x18, 0x19, 0x1B]) } else { kind } {
            0x15 if random.percent(50) => &[0x15, next, end + 3],
            0x15 => &[0x15, end + 1, next],
            0x16 if random.percent(50) => &[0x16, next, end + 1],
            0x16 => &[0x16, end + 4, next],
            0x17 if random.percent(50) => &[0x17, next, end + 3, 0, end + 3, 0, end + 1, end + 3],
            0x17 => &[0x17, end + 3, next, 0, end + 3, 0, end + 1, end + 3],
            0x18 if random.percent(30) => &[0x18, next, end + 1, 0, end + 2, 0],
            0x18 => &[0x18, end + 2, end + 1, 0, next, 0],
            0x19 => &[0x19, end + 5, next],
            0x1C => &[0x1C, next, 0, 0, end + 4],
            _ => &[0x1B, next, 0, 1],
        };
        sheet.extend(record);
    }
    // The variable is one of the plan, or the last that a chain of splits adds.
    let variable = if kind == 0x19 && random.percent(70) { 2 * length - random.below(3) } else { 0 };
    sheet.extend([0x10, variable as u8, 0x11, 0x12, 0x13, 0x14, 0, 7, 0x16, end + 6, end + 6, 0x11]);
    let plan = match random.below(4) {
        _ if kind == 0x1C => numbers(random, 0, 4),
        0 => vec![0x00],
        1 => vec![0x02],
        2 => vec![0x01],
        _ => vec![0x04, 0, random.byte()],
    };
    let steps = random.of(length - 3..2 * length + 8) as u32;
    // A put through the subjects of 1Cs gets them anew at each level.
    let allowance = if kind == 0x1C { steps * random.pick(&[1, 2, 50, 200]) } else { steps };
    Job { sheet, plan, view: None, allowance }
}

fn join(random: &mut Random) -> Job {
    let mut plan = numbers(random, 10, 19);
    plan.extend(numbers(random, 0, 4));
    Job { sheet: JOIN.to_vec(), plan, view: None, allowance: random.pick(&[60, 70, 80, 90, 100, 1000]) + random.below(10) as u32 }
}

/// A list case that a put may switch either way; what the view does not say comes from the defaults.
fn switch(random: &mut Random) -> Job {
    // Behind the case: its subject, the branches, the defaults, and what these are made of.
    let mut sheet = vec![0x01, 0x02, 0x00, 0x20, 0x00];
    let tests = random.pick(&[[1, 2], [1, 2], [1, 5], [1, 6], [3, 2], [4, 0], [0, 2]]);
    let first = random.pick(&[4, 4, 4, 5, 6]);
    let rest = random.pick(&[7, 7, 7, 8, 4, 6]);
    sheet.extend([0x17, 1, 2, tests[0], 3, tests[1], first, rest]);
    sheet.extend([0x10, 0]);
    sheet.extend(match tests[0] {
        1 => [0x13].as_slice(),
        3 => &[0x11],
        4 => &[0x12],
        _ => &[0x10, 1],
    });
    // In the branch variables 2 and 3 are first and rest.
    sheet.extend(random.pick(&[
        [0x15, 9, 12], // first alone
        [0x15, 10, 12],
        [0x15, 11, 14], // rest alone, behind variable 1
        [0x15, 9, 14],
        [0x15, 9, 13], // both, the rest through the section
    ]));
    sheet.extend([0x14, 0, 9, 0x10, random.byte() % 3, 0x12]);
    sheet.extend([0x15, 10, 12, 0x13]);
    sheet.extend([0x10, 2, 0x14, 0, 5, 0x10, 1, 0x13, 0x1A, 0, 3, 1, 0x10, 3]);
    let mut plan = numbers(random, 0, 3);
    plan.extend(if random.percent(70) { Value::number(random).bytes() } else { numbers(random, 0, 3) });
    let view = match random.below(8) {
        0 => vec![0x02],
        1 => vec![random.byte() % 2],
        2 => [vec![0x03, 0x04, 0, 5], numbers(random, 0, 2)].concat(),
        _ => numbers(random, 0, 4),
    };
    Job { sheet, plan, view: Some(view), allowance: 1000 }
}

/// A row of variable 0 whose members each go through a section, with lists of up to 256 bytes and more.
fn each(random: &mut Random) -> Job {
    // Behind the 1C and its subject: the section's root, the default, and what both are made of.
    let mut sheet = vec![0x01, 0x02, 0x00, 0x20, 0x02];
    let default = random.pick(&[3, 3, 4, 5, 6, 7]);
    sheet.extend([0x1C, 1, 0, random.pick(&[0, 1, 1, 1, 1, 1, 1, 2]), default, 0x10, 0]);
    let root: &[u8] = random.pick(&[
        &[0x10, 0][..],      // the member
        &[0x10, 1],          // the caller's variable
        &[0x1B, 7, 0, 1],    // one more than the member
        &[0x15, 7, 4],       // a list of the member
        &[0x16, 7, 7],       // the member twice
        &[0x16, 7, 8],       // the member and the caller's variable
        &[0x19, 7, 9],       // a pair's second part
        &[0x1A, 0, 1, 0],    // the section without end
        &[0x1C, 7, 0, 1, 4], // the same within a member that is a list
    ]);
    sheet.extend(root);
    sheet.extend([0x14, 0, 9, 0x13, 0x16, 6, 6, 0x12, 0x10, 0, 0x10, 1, 0x10, 3]);
    let mut plan = row(random, root[0]);
    plan.extend(if random.percent(70) { Value::number(random).bytes() } else { row(random, 0x10) });
    let other = random.pick(&[root[0], root[0], 0x10, 0x15, 0x19]);
    let view = if random.percent(30) { Some(row(random, other)) } else { None };
    Job { sheet, plan, view, allowance: 1000 }
}

/// A list whose members a section with a root of this kind can take: of a few members, many, or about as many as fit.
fn row(random: &mut Random, kind: u8) -> Vec<u8> {
    let most = random.pick(&[3, 3, 3, 12, 64, 65, 66]);
    let length = if random.percent(50) { random.below(most) } else { most - 1 };
    let same = random.percent(40).then_some(vec![random.byte() % 3]);
    let make = if random.percent(20) { Value::price } else { Value::number };
    let member = |random: &mut Random| match kind {
        _ if random.percent(1) => Value::any(random).bytes(),
        0x15 | 0x1C => {
            let depth = random.below(3);
            [vec![0x03; depth], vec![0x02; depth + 1]].concat()
        }
        0x19 => vec![0x05, random.byte() % 3, 0x04, 0, random.byte()],
        _ => same.clone().unwrap_or_else(|| make(random).bytes()),
    };
    let mut row: Vec<u8> = (0..length).flat_map(|_| [vec![0x03], member(random)].concat()).collect();
    row.push(0x02);
    row
}

/// Lists within lists, a 1C for each, down to about the 48th level.
fn nest(random: &mut Random) -> Job {
    let mut sheet = vec![0x01, 0x01, 0x00, 0x20, 0x00, 0x1C, 0x01, 0x00, 0x00, 0x02, 0x10, 0x00];
    let default: &[u8] = random.pick(&[&[0x13][..], &[0x15, 3, 3, 0x13]]);
    sheet.extend(default);
    let mut nested = |least: usize| {
        let depth = random.of(least..50);
        let mut bytes = vec![0x03; depth];
        bytes.push(0x02);
        // Now and then a list has one more member, which is empty.
        bytes.extend((0..depth).flat_map(|_| if random.percent(10) { vec![0x03, 0x02, 0x02] } else { vec![0x02] }));
        bytes
    };
    let (plan, view) = (nested(40), nested(0));
    let view = random.percent(40).then_some(view);
    Job { sheet, plan, view, allowance: random.pick(&[90, 95, 140, 190, 1000]) }
}

pub fn numbers(random: &mut Random, least: usize, most: usize) -> Vec<u8> {
    let length = random.of(least..most);
    let make = if random.percent(15) { Value::price } else { Value::number };
    Value::List((0..length).map(|_| make(random)).collect()).bytes()
}

/// Values of 251 to 261 bytes, now and then cut, put in front of one another.
fn long(random: &mut Random) -> Job {
    let sheet = random.pick(&[
        &[0x01u8, 0x01, 0x00, 0x10, 0x00][..],
        &[0x01, 0x02, 0x00, 0x15, 0x01, 0x02, 0x10, 0x00, 0x10, 0x01],
        &[0x01, 0x02, 0x00, 0x16, 0x01, 0x02, 0x10, 0x00, 0x10, 0x01],
        &[0x01, 0x01, 0x00, 0x19, 0x01, 0x02, 0x10, 0x00, 0x10, 0x01],
        &[0x01, 0x01, 0x00, 0x17, 0x01, 0x02, 0x00, 0x03, 0x00, 0x02, 0x02, 0x10, 0x00, 0x13, 0x10, 0x01],
    ]);
    let mut plan = Vec::new();
    for _ in 0..sheet[1] {
        let length = if random.percent(50) { random.of(120..135) } else { random.of(251..262) };
        plan.extend(sized(random, length));
    }
    if random.percent(40) {
        plan.truncate(plan.len().min(random.of(253..260)));
    }
    let mut view = None;
    if random.percent(50) {
        let length = random.of(200..262);
        let mut bytes = sized(random, length);
        if random.percent(40) {
            bytes.truncate(random.of(253..260));
        }
        view = Some(bytes);
    }
    Job { sheet: sheet.to_vec(), plan, view, allowance: 1000 }
}

/// A value of this length, or of one less (the length of a value is odd).
pub fn sized(random: &mut Random, length: usize) -> Vec<u8> {
    let mut bytes = Vec::new();
    let in_front: [u8; 2] = random.pick(&[[0x03, 0x01], [0x05, 0x00], [0x03, 0x02]]);
    let end = match in_front[0] {
        _ if random.percent(60) => vec![0x02],
        0x05 => wide(random),
        _ => [vec![0x03], wide(random), vec![0x02]].concat(),
    };
    let between = random.pick(&[0, 0, 0x04, 0x06]);
    while bytes.len() + 2 + end.len() <= length {
        bytes.extend(in_front);
        let number = match between {
            0x04 => vec![in_front[0], 0x04, 0x00, random.byte()],
            0x06 => vec![in_front[0], 0x06, 0x00, 0x01, 0x00, random.byte()],
            _ => Vec::new(),
        };
        if bytes.len() + number.len() + end.len() <= length {
            bytes.extend(number);
        }
    }
    bytes.extend(end);
    bytes
}

/// An 06, some with a number that is too small for it.
fn wide(random: &mut Random) -> Vec<u8> {
    let [a, b, c, d] = about_65_536(random).to_be_bytes();
    vec![0x06, a, b, c, d]
}

fn about_65_536(random: &mut Random) -> u32 {
    random.pick(&[0, 256, 65_535, 65_535, 65_536, 65_536, 65_537, 65_792, 1 << 24, u32::MAX])
}

/// A value of about 256 bytes that ends with a number of four, which may be too small; the input may end within it.
fn ending(random: &mut Random) -> Job {
    let mut value = [0x05, 0x00].repeat(random.of(122..129));
    if random.percent(30) {
        // The same length, with lists of numbers in it.
        value.splice(0..12, [0x05, 0x03, 0x06, 0x00, 0x01, 0x00, 0x00, 0x03, 0x00, 0x02, 0x05, 0x01]);
    }
    value.extend(wide(random));
    if random.percent(50) {
        value.truncate(random.of(253..260));
    }
    let identity = [0x01, 0x01, 0x00, 0x10, 0x00];
    let (plan, view) = if random.percent(50) { (value, None) } else { (vec![0x01], Some(value)) };
    Job { sheet: identity.to_vec(), plan, view, allowance: 1000 }
}

/// Numbers about 65,536 of both kinds, where each kind of node meets them.
fn prices(random: &mut Random) -> Job {
    // Behind the root: variables 0 and 1, a price, [ ], the section's root, and what this is made of.
    let test = random.byte() % 7;
    let cases = [&[0x17, 1, 3, test, 2, 2, 3, 4][..], &[0x18, 1, 3, test, 2, test]];
    let root: &[u8] = random.pick(&[
        &[0x10, 0][..],
        &[0x1D, 0, 1, 0, 0],
        &[0x14, 0xFF, 0xFF],
        &[0x1B, 1, 0, 0],
        &[0x1B, 1, 0, 1],
        &[0x1B, 3, 0, 1],
        &[0x15, 3, 4],
        &[0x15, 3, 1],
        &[0x15, 1, 3],
        &[0x16, 1, 3],
        &[0x16, 1, 1],
        &[0x17, 1, 3, 0, 2, 0, 3, 4],
        cases[0],
        &[0x18, 1, 2, 0, 3, 0],
        cases[1],
        &[0x19, 1, 2],
        &[0x19, 1, 3],
        &[0x1A, 0, 0, 1],
        &[0x1C, 1, 0, 1, 3],
        &[0x1C, 1, 0, 1, 3],
    ]);
    let price = about_65_536(random).max(if random.percent(90) { 65_536 } else { 0 });
    let [a, b, c, d] = price.to_be_bytes();
    let constant = [0x1D, a, b, c, d];
    let section: &[u8] = random.pick(&[&[0x10, 0][..], &[0x16, 6, 6], &[0x16, 6, 7], &[0x16, 7, 6], &[0x1B, 6, 0, 1]]);
    let mut sheet = vec![0x01, 0x02, 0x00, 0x20, 0x05];
    for record in [root, &[0x10, 0], &[0x10, 1], &constant, &[0x13], section, &[0x10, 0], &constant] {
        sheet.extend(record);
    }
    let plan = [near(random, price), near(random, price)].concat();
    let view = random.percent(50).then(|| near(random, price));
    Job { sheet, plan, view, allowance: 1000 }
}

/// A value made of numbers about 65,536, of a price and of what is no number.
fn near(random: &mut Random, price: u32) -> Vec<u8> {
    let one = |random: &mut Random| match random.below(8) {
        0 => Value::Truth(random.percent(50)),
        1..=3 => Value::Number(price),
        _ => Value::Number(about_65_536(random)),
    };
    match random.below(6) {
        0 | 1 => one(random),
        2 => Value::Truth(random.percent(50)),
        3 => Value::Pair(Box::new(one(random)), Box::new(one(random))),
        4 => Value::List(vec![Value::Pair(Box::new(one(random)), Box::new(Value::Number(price)))]),
        _ => Value::List((0..random.below(4)).map(|_| one(random)).collect()),
    }
    .bytes()
}

/// About as many sections and nodes as a sheet may have, and a last record that may be cut.
fn full(random: &mut Random) -> Job {
    let many_nodes = random.percent(50);
    let sections = if many_nodes { 1 } else { random.of(7..11) };
    let nodes = if many_nodes { random.of(198..204) } else { random.below(3) };
    let mut sheet = vec![0x01, random.of(15..18) as u8, 0];
    for _ in 0..sections {
        sheet.extend([0x20, 0]);
    }
    for own in 0..nodes {
        let next = (own + 1) as u8;
        let record: &[u8] = match random.below(4) {
            0 if own + 1 < nodes => &[0x1B, next, 0, 0],
            1 if own + 1 < nodes => &[0x16, next, next],
            2 => &[0x1A, 0, 1, 0],
            _ => &[0x10, 15],
        };
        sheet.extend(record);
    }
    if random.percent(60) {
        let cut: &[u8] = random.pick(&[
            &[0x10][..],
            &[0x20],
            &[0x17, 1, 2],
            &[0x1B, 0, 0],
            &[0x1C, 1, 0, 0],
            &[0x1D, 0, 1, 0],
            &[0x1E],
            &[0x21],
            &[0x0F],
        ]);
        sheet.extend(cut);
    }
    let mut plan = vec![0x01; usize::from(sheet[1])];
    if random.percent(10) {
        damage(&mut plan, random);
    }
    Job { sheet, plan, view: None, allowance: 1000 }
}
