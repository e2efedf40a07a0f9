//! How much longer the list can get (request 14): archive and reference agree, and lists of two plans are so much longer.

use crate::random::Random;
use crate::sheets::{by_record, by_type};
use crate::tools::check_cases;
use crate::values::{damage, number, price, Value};
use lens::{raw, Sheet};

#[derive(Debug)]
struct Case {
    sheet: Vec<u8>,
    variable: usize,
    /// Two plans that differ in the variable alone, and how long its value is in each.
    plans: [(Vec<u8>, usize); 2],
}

fn case(random: &mut Random) -> Case {
    let k = random.of(1..4);
    let mut sheet = match random.below(20) {
        0 => by_record(random),
        1 => by_type(random).bytes,
        _ => shared(random, k),
    };
    if random.percent(6) {
        damage(&mut sheet, random);
    }
    let variable = match random.below(20) {
        0 => random.of(k..20),
        1 => random.pick(&[256, 1 << 16, 1 << 32, usize::MAX]) - random.below(2),
        _ => random.below(k),
    };
    let values: Vec<Vec<u8>> = (0..k).map(|_| Value::any(random).bytes()).collect();
    let other = Value::any(random).bytes();
    let lengths = [values.get(variable).map_or(0, Vec::len), other.len()];
    let mut others = values.clone();
    if let Some(value) = others.get_mut(variable) {
        *value = other;
    }
    Case { sheet, variable, plans: [(values.concat(), lengths[0]), (others.concat(), lengths[1])] }
}

/// A sheet of the kinds that grow with their variables, many of its nodes used more than once.
fn shared(random: &mut Random, k: usize) -> Vec<u8> {
    let nodes = match random.below(10) {
        0 => random.of(100..201),
        1..=4 => random.of(8..40),
        _ => random.of(1..9),
    };
    // The nearer the children, the more often nodes are entered.
    let reach = random.pick(&[1, 2, 3, 8]);
    let root = if random.percent(80) { 0 } else { random.below(nodes) };
    let mut bytes = vec![0x01, k as u8, root as u8];
    for own in 0..nodes {
        let inner = own + 1 < nodes && (own + 4 < nodes || random.percent(50));
        let node = |random: &mut Random| random.of(own + 1..nodes.min(own + 1 + reach)) as u8;
        match random.below(if inner { 10 } else { 3 }) {
            3 => {
                bytes.extend([0x1B, node(random)]);
                bytes.extend([0, random.byte()]);
            }
            kind @ 4..=9 => bytes.extend([if kind == 4 { 0x15 } else { 0x16 }, node(random), node(random)]),
            _ => leaf(random, k, &mut bytes),
        }
    }
    bytes
}

fn leaf(random: &mut Random, k: usize, bytes: &mut Vec<u8>) {
    match random.below(12) {
        0 => bytes.push(random.of(0x11..0x14) as u8),
        1 => {
            bytes.push(0x14);
            bytes.extend(number(random).to_be_bytes());
        }
        2 => {
            bytes.push(0x1D);
            bytes.extend(price(random).to_be_bytes());
        }
        3 => bytes.extend([0x10, random.byte() % 20]),
        _ => bytes.extend([0x10, random.below(k) as u8]),
    }
}

#[test]
fn growth_of_the_list() {
    check_cases(&[0, 10, 11, 13, 14, 23, 87, 88], case, |case, both| {
        let Case { sheet, variable, plans } = case;
        let answer = both.same(raw::growth(sheet, *variable), reference::growth(sheet, *variable));
        let lists = plans.each_ref().map(|(plan, _)| Sheet::new(sheet).get(plan, 1000).map(|got| got.view.len()));
        let [(_, short), (_, long)] = plans;
        match (answer.number(), lists) {
            (0, [Ok(first), Ok(second)]) => assert_eq!(second + answer.growth() * short, first + answer.growth() * long),
            (88, lists) => assert!(lists.iter().all(Result::is_err), "a plan reads out"),
            _ => {}
        }
    });
}
