//! The jobs of the table.

use reference::answer::taken;
use reference::job::Job;
use reference::{ALLOWANCE, PUT_OUT, SCRATCH};

pub struct Row {
    pub name: &'static str,
    pub job: Job,
    /// How many times the reference's time the archive may take.
    pub limit: f64,
}

pub const LIMIT: f64 = 1.7;
/// The limit of a job with a 1C.
const EACH_LIMIT: f64 = 1.8;
/// The limit of a walk of about 250,000 steps.
const WALKING_LIMIT: f64 = 2.6;

const IDENTITY: &[u8] = &[0x01, 0x01, 0x00, 0x10, 0x00];
const JOIN: &[u8] = &[
    0x01, 0x02, 0x00, 0x20, 0x01, 0x1A, 0x00, 0x00, 0x01, 0x17, 0x02, 0x03, 0x00, 0x04, 0x02, 0x07, 0x08, 0x10, 0x00, 0x10, 0x01,
    0x15, 0x05, 0x06, 0x10, 0x02, 0x1A, 0x00, 0x03, 0x01, 0x11, 0x13,
];
/// Adds 100 to every member; the tests tell empty lists from others, so that a put may make the list longer or shorter.
const RAISE: &[u8] = &[
    0x01, 0x02, 0x00, 0x20, 0x01, // section 0 from node 1
    0x1A, 0x00, 0x00, 0x01, // 0: call section 0
    0x17, 0x02, 0x03, 0x01, 0x04, 0x02, 0x08, 0x09, // 1: list case
    0x10, 0x00, // 2: the list
    0x13, // 3
    0x15, 0x05, 0x07, // 4: front
    0x1B, 0x06, 0x00, 0x64, // 5: the first member and 100
    0x10, 0x02, // 6
    0x1A, 0x00, 0x03, 0x01, // 7: the rest likewise
    0x14, 0x00, 0x00, // 8
    0x13, // 9
];

/// The first part of every pair; a pair that a put adds has what was sent for it as both its parts.
const OPEN: &[u8] = &[
    0x01, 0x01, 0x00, 0x20, 0x01, // section 0 from node 1
    0x1A, 0x00, 0x00, 0x00, // 0: call section 0
    0x17, 0x02, 0x03, 0x01, 0x04, 0x02, 0x09, 0x0E, // 1: list case
    0x10, 0x00, // 2: the list
    0x13, // 3
    0x15, 0x05, 0x08, // 4: front
    0x19, 0x06, 0x07, // 5: split
    0x10, 0x02, // 6: the first member
    0x10, 0x04, // 7: its first part
    0x1A, 0x00, 0x03, 0x03, // 8: the rest likewise
    0x16, 0x0A, 0x0A, // 9: the default first member, a pair of node 10 twice
    0x17, 0x0B, 0x0C, 0x00, 0x0D, 0x00, 0x0E, 0x0E, // 10: list case
    0x10, 0x00, // 11: the list sent
    0x14, 0x00, 0x00, // 12
    0x10, 0x01, // 13: its first member
    0x13, // 14: the default rest
];

/// Adds 100 to every member, by a 1C.
const RAISE_EACH: &[u8] = &[
    0x01, 0x01, 0x00, 0x20, 0x03, // section 0 from node 3
    0x1C, 0x01, 0x00, 0x00, 0x02, // 0: each
    0x10, 0x00, // 1: the list
    0x14, 0x00, 0x00, // 2: the default
    0x1B, 0x04, 0x00, 0x64, // 3: the member and 100
    0x10, 0x00, // 4
];
/// Turns every pair of a list round, by a 1C.
const TURN_EACH: &[u8] = &[
    0x01, 0x01, 0x00, 0x20, 0x03, // section 0 from node 3
    0x1C, 0x01, 0x00, 0x00, 0x02, // 0: each
    0x10, 0x00, // 1: the list
    0x16, 0x08, 0x08, // 2: the default
    0x19, 0x04, 0x05, // 3: split
    0x10, 0x00, // 4: the member
    0x16, 0x06, 0x07, // 5: the pair of its second part
    0x10, 0x03, // 6
    0x10, 0x02, // 7: and its first
    0x11, // 8
];

/// A pair of each price of a list and a fixed price, by a 1C; numbers of four bytes all.
const PRICE_EACH: &[u8] = &[
    0x01, 0x01, 0x00, 0x20, 0x03, // section 0 from node 3
    0x1C, 0x01, 0x00, 0x00, 0x02, // 0: each
    0x10, 0x00, // 1: the list
    0x1D, 0x00, 0x01, 0x11, 0x70, // 2: the default, 70,000
    0x16, 0x04, 0x05, // 3: the pair
    0x10, 0x00, // 4: of the member
    0x1D, 0x00, 0x01, 0x86, 0xA0, // 5: and 100,000
];

pub fn rows() -> Vec<Row> {
    let one = numbers(1..2);
    let mut rows = vec![
        both("small: one variable", IDENTITY, one, None),
        both("small: join [1, 2] and [3, 4, 5]", JOIN, [numbers(1..3), numbers(3..6)].concat(), Some(numbers(6..11))),
        both("typical: join 15 and 48 numbers", JOIN, [numbers(0..15), numbers(15..63)].concat(), Some(numbers(100..163))),
        both("typical: add to 10 numbers", RAISE, [numbers(0..10), vec![0x02]].concat(), Some(numbers(100..110))),
        vec![row("typical: 10 switches to a longer list, put", RAISE, vec![0x02, 0x02], Some(numbers(100..110)))],
        vec![row("typical: 10 defaults of the list sent, put", OPEN, vec![0x02], Some(numbers(100..110)))],
        vec![row(
            "typical: a switch to a shorter list, put",
            JOIN,
            [numbers(0..15), numbers(15..20)].concat(),
            Some(numbers(7..8)),
        )],
        both("typical: 16 numbers to a list", &listing(), (0..16).flat_map(|n| [0x04, 0, n]).collect(), Some(numbers(20..36))),
        both("typical: splits 40 deep", &splits(40), nested(40), None),
        both("typical: 40 tests of a list of 61 numbers", &tested(40), numbers(0..61), None),
        limited(EACH_LIMIT, both("typical: add to each of 63 numbers", RAISE_EACH, numbers(0..63), Some(numbers(200..263)))),
        limited(EACH_LIMIT, both("typical: split each of 21 pairs", TURN_EACH, pairs(0..21), Some(pairs(40..61)))),
        limited(EACH_LIMIT, both("typical: 21 prices, each beside another", PRICE_EACH, prices(0..21), Some(beside(40..61)))),
        both("heavy: full plan, 16 values of 255 bytes", &[0x01, 0x10, 0x00, 0x10, 0x00], full_plan(), None),
        walking("walking: truth cases", truths, &[0x01]),
        walking("walking: list cases of 63 numbers", lists, &numbers(0..63)),
        walking("walking: calls", calls, &[0x01]),
    ];
    rows.push(vec![row("refused: sheet empty, get", &[], vec![0x00], None)]);
    rows.concat()
}

impl Clone for Row {
    fn clone(&self) -> Row {
        Row { name: self.name, job: self.job.clone(), limit: self.limit }
    }
}

fn row(name: &str, sheet: &[u8], plan: Vec<u8>, view: Option<Vec<u8>>) -> Row {
    Row { name: String::from(name).leak(), job: Job { sheet: sheet.to_vec(), plan, view, allowance: ALLOWANCE }, limit: LIMIT }
}

/// A get, and a put of `view` or else of the list that the get gives.
fn both(name: &str, sheet: &[u8], plan: Vec<u8>, view: Option<Vec<u8>>) -> Vec<Row> {
    let get = row(&format!("{name}, get"), sheet, plan.clone(), None);
    let view = view.unwrap_or_else(|| run(&get.job).0);
    vec![get, row(&format!("{name}, put"), sheet, plan, Some(view))]
}

/// The rows with another limit.
fn limited(limit: f64, rows: Vec<Row>) -> Vec<Row> {
    rows.into_iter().map(|row| Row { limit, ..row }).collect()
}

/// How many steps a walking job takes, as near as its nodes come.
const WALK: u32 = 250_000;

/// Makes a sheet whose first nodes are given, truth cases and leaves behind them; it is told the number of the first node that it
/// adds. Every node that it adds gives the plan's one value, and the earlier ones take more steps.
type Family = fn(&[u8], u8) -> Vec<u8>;

/// How many nodes of a family a walk is put together from.
const STARTS: u8 = 24;

/// A get and a put of 250,000 steps: a chain of cases whose subjects are nodes of the family, the heaviest that still fits each time.
fn walking(name: &str, family: Family, plan: &[u8]) -> Vec<Row> {
    let sheet = family(&[], 0);
    let from = |view: Option<&[u8]>, root: u8| {
        let mut sheet = sheet.clone();
        sheet[2] = root;
        run(&Job { sheet, plan: plan.to_vec(), view: view.map(<[u8]>::to_vec), allowance: ALLOWANCE }).1
    };
    // A start that takes more than the allowance is of no use.
    let taken = |steps: u32| if steps == 0 { ALLOWANCE } else { steps };
    let gets: Vec<u32> = (0..STARTS).map(|root| taken(from(None, root))).collect();
    let puts: Vec<u32> = (0..STARTS).map(|root| gets[usize::from(root)] + taken(from(Some(plan), root))).collect();
    let case = |subject: u8, next: u8, leaf: u8| match plan {
        [0x01] => vec![0x18, subject, next, 0, next, 0],
        _ => vec![0x17, subject, next, 0, next, 0, leaf, leaf],
    };
    [("get", None, gets), ("put", Some(plan.to_vec()), puts)]
        .map(|(way, view, weights)| {
            let subjects = chosen(&weights);
            let count = subjects.len() as u8;
            let chain: Vec<u8> = (1..)
                .zip(&subjects)
                .flat_map(|(next, subject)| {
                    case(count + subject, if next < count { next } else { count + STARTS }, count + STARTS + 1)
                })
                .collect();
            Row { limit: WALKING_LIMIT, ..row(&format!("{name}, {way}"), &family(&chain, count), plan.to_vec(), view) }
        })
        .to_vec()
}

/// Starts whose weights, each with one step for its case, come near to the walk's steps.
fn chosen(weights: &[u32]) -> Vec<u8> {
    let mut left = WALK - 1;
    let mut chosen = Vec::new();
    while let Some(start) = (0..weights.len()).find(|&start| weights[start] < left) {
        left -= 1 + weights[start];
        chosen.push(start as u8);
    }
    chosen
}

/// What the reference gives, and its steps.
pub fn run(job: &Job) -> (Vec<u8>, u32) {
    let mut out = vec![0; PUT_OUT];
    let success = taken(job.run(&mut out, &mut vec![0; SCRATCH])).unwrap_or_default();
    out.truncate(success.length);
    (out, success.steps)
}

pub fn numbers(range: std::ops::Range<u16>) -> Vec<u8> {
    let mut list: Vec<u8> = range.flat_map(|n| [0x03, 0x04, (n >> 8) as u8, n as u8]).collect();
    list.push(0x02);
    list
}

/// A list of pairs: n and 100 more.
pub fn pairs(range: std::ops::Range<u8>) -> Vec<u8> {
    let mut list: Vec<u8> = range.flat_map(|n| [0x03, 0x05, 0x04, 0, n, 0x04, 0, n + 100]).collect();
    list.push(0x02);
    list
}

/// A list of prices: 80,000 and n.
fn prices(range: std::ops::Range<u32>) -> Vec<u8> {
    let mut list: Vec<u8> = range.flat_map(|n| [&[0x03][..], &price(80_000 + n)].concat()).collect();
    list.push(0x02);
    list
}

/// A list of pairs: 80,000 and n, and the fixed price of the sheet.
fn beside(range: std::ops::Range<u32>) -> Vec<u8> {
    let mut list: Vec<u8> = range.flat_map(|n| [&[0x03, 0x05][..], &price(80_000 + n), &price(100_000)].concat()).collect();
    list.push(0x02);
    list
}

/// A number of four bytes.
fn price(number: u32) -> [u8; 5] {
    let [a, b, c, d] = number.to_be_bytes();
    [0x06, a, b, c, d]
}

/// Sixteen variables to a list of sixteen members.
fn listing() -> Vec<u8> {
    let mut sheet = vec![0x01, 0x10, 0x00];
    for variable in 0..16 {
        sheet.extend([0x15, 16 + variable, variable + 1]);
    }
    // Node 16 ends the list, so the variables' nodes move up by one.
    for record in sheet[3..].chunks_mut(3) {
        record[1] += 1;
    }
    sheet.push(0x13);
    for variable in 0..16 {
        sheet.extend([0x10, variable]);
    }
    sheet
}

/// `depth` splits, each of the right part of the one before; the innermost gives the last pair anew.
fn splits(depth: u8) -> Vec<u8> {
    let mut sheet = vec![0x01, 0x01, 0x00];
    for level in 0..depth {
        // The subject's node stands behind all the splits and the pair.
        sheet.extend([0x19, depth + 3 + level, level + 1]);
    }
    sheet.extend([0x16, depth + 1, depth + 2, 0x10, 2 * depth, 0x10, 2 * depth - 1]);
    for level in 0..depth {
        sheet.extend([0x10, 2 * level]);
    }
    sheet
}

/// `depth` truth cases, one in another, each of which tests its branch for two or more members; the innermost gives the plan's value.
fn tested(depth: u8) -> Vec<u8> {
    let (variable, truth) = (depth, depth + 1);
    let mut sheet = vec![0x01, 0x01, 0x00];
    for next in 1..=depth {
        sheet.extend([0x18, truth, variable, 5, next, 6]);
    }
    sheet.extend([0x10, 0x00, 0x12]);
    sheet
}

/// A value of `depth` pairs, each the right part of the one before.
fn nested(depth: u8) -> Vec<u8> {
    let mut value = [0x05, 0x01].repeat(usize::from(depth));
    value.extend([0x04, 0x00, 0x07]);
    value
}

/// A list in a list, so many deep.
pub fn nested_lists(depth: usize) -> Vec<u8> {
    [vec![0x03; depth - 1], vec![0x02; depth]].concat()
}

/// Sixteen values of 255 bytes.
pub fn full_plan() -> Vec<u8> {
    // Two bytes more than 63 numbers have: a pair of True and that list.
    let value = [vec![0x05, 0x01], numbers(0..63)].concat();
    assert_eq!(value.len(), 255);
    value.repeat(16)
}

/// Truth cases, each with the next node as its subject and the next but one as its branches: steps grow by Fibonacci's numbers.
fn truths(before: &[u8], first: u8) -> Vec<u8> {
    grown(before, first, &[], |next, branch, _| vec![0x18, next, branch, 0, branch, 0], &[0x10, 0x00, 0x13])
}

/// The same of list cases.
fn lists(before: &[u8], first: u8) -> Vec<u8> {
    grown(before, first, &[], |next, branch, leaf| vec![0x17, next, branch, 0, branch, 0, leaf, leaf], &[0x10, 0x00, 0x13])
}

/// The same of truth cases, with a call of four sections in one another at the end of each way down.
fn calls(before: &[u8], first: u8) -> Vec<u8> {
    let section = first + STARTS + 2;
    let sections: Vec<u8> = (0..4).flat_map(|number| [0x20, section + 2 * number]).collect();
    let mut end = vec![0x1A, 0, 0, 0, 0x13];
    for number in 0..4 {
        let own = section + 2 * number;
        end.extend([0x18, own + 1, own + 1, 0, own + 1, 0]);
        if number < 3 {
            end.extend([0x1A, number + 1, 0, 1]);
        } else {
            end.extend([0x10, 0x00]);
        }
    }
    grown(before, first, &sections, |next, branch, _| vec![0x18, next, branch, 0, branch, 0], &end)
}

fn grown(before: &[u8], first: u8, sections: &[u8], case: impl Fn(u8, u8, u8) -> Vec<u8>, end: &[u8]) -> Vec<u8> {
    let last = first + STARTS;
    let mut sheet = vec![0x01, 0x01, 0x00];
    sheet.extend(sections);
    sheet.extend(before);
    for own in first..last {
        sheet.extend(case(own + 1, (own + 2).min(last), last + 1));
    }
    sheet.extend(end);
    sheet
}
