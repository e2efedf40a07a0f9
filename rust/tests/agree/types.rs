//! Sheets checked by types (request 6): archive and reference agree, and what a passed sheet never meets is not met.

use crate::random::Random;
use crate::records::{parts, redirect};
use crate::sheets::{by_type, has};
use crate::tools::check_cases;
use crate::typed::{any, bytes, typed};
use crate::values::{damage, has_price, Type, Value};
use lens::{raw, Explanation, Refusal, Sheet};

#[derive(Debug)]
struct Case {
    sheet: Vec<u8>,
    types: Vec<u8>,
    /// Of the stated types, where these are as they were made.
    plan: Vec<u8>,
    view: Vec<u8>,
    spoiled: bool,
}

fn case(random: &mut Random) -> Case {
    let mut made = typed(random);
    let plan = made.plan.iter().flat_map(|ty| value(random, ty)).collect();
    let view = value(random, &made.view);
    let spoiled = random.percent(60);
    if spoiled {
        match random.below(12) {
            0 => made.sheet = by_type(random).bytes,
            1 => damage(&mut made.sheet, random),
            2 => redirect(random, &mut made.sheet),
            3 => {
                made.types.pop();
            }
            4 => made.types.push(vec![random.pick(&[0x30, 0x31, 0x32, 0x33])]),
            5 => spoil_variable(random, &mut made.sheet),
            _ => spoil_type(random, &mut made.types),
        }
    }
    let mut types = made.types.concat();
    if spoiled && random.percent(10) {
        damage(&mut types, random);
    }
    Case { sheet: made.sheet, types, plan, view, spoiled }
}

/// A value of a type. One of the longest, a list of lists of lists, has the empty list alone: others would be too many to make.
fn value(random: &mut Random, ty: &Type) -> Vec<u8> {
    if bytes(ty).len() > 20 {
        vec![0x02]
    } else {
        Value::random(random, ty).bytes()
    }
}

/// Another type in one place, or two in each other's.
fn spoil_type(random: &mut Random, types: &mut [Vec<u8>]) {
    let (at, other) = (random.below(types.len()), random.below(types.len()));
    match random.below(4) {
        0 => types.swap(at, other),
        1 => types[at] = types[other].clone(),
        2 => types[at] = bytes(&any(random, 2)),
        _ => types[at] = bytes(&Type::List(Box::new(any(random, 1)))),
    }
}

/// Another variable in one record 10.
fn spoil_variable(random: &mut Random, sheet: &mut Vec<u8>) {
    let (head, mut nodes) = parts(sheet);
    let named: Vec<usize> = (0..nodes.len()).filter(|&node| nodes[node][0] == 0x10).collect();
    if !named.is_empty() {
        let node = random.pick(&named);
        nodes[node][1] = random.byte() % 8;
        *sheet = [head.concat(), nodes.concat()].concat();
    }
}

#[test]
fn sheets_checked_by_types() {
    check_cases(&[0, 10, 11, 13, 80, 81, 82], case, |Case { sheet, types, plan, view, spoiled }, both| {
        let answer = both.same(raw::check_types(sheet, types), reference::check_types(sheet, types));
        assert_eq!(answer.node().is_some(), matches!(answer.number(), 81 | 82));
        if answer.number() != 0 {
            // What was made to fit does, but for types and numbers that are too long for a sheet.
            assert!(*spoiled || matches!(answer.number(), 80 | 12 | 13), "{answer:?}");
            return;
        }
        let wide = has(sheet, 0x1D) || has_price(plan) || has_price(view);
        let nodes = parts(sheet).1;
        let judge = |why: Option<Explanation>| {
            let Some(why) = why else { return };
            let kind = why.node().map(|node| nodes[usize::from(node)][0]);
            match why.refusal {
                Refusal::SCOPE => panic!("a variable is not in scope: {why:?}"),
                // A spoiled sheet may have other types than the plan and the list.
                _ if *spoiled => {}
                Refusal::VALUE_KIND => assert!(wide && kind == Some(0x1B), "{why:?}"),
                Refusal::VIEW_KIND => assert!(kind == Some(0x15) || wide && kind == Some(0x1B), "{why:?}"),
                _ => {}
            }
        };
        let sheet = Sheet::new(sheet);
        judge(sheet.why_get(plan, 1000));
        judge(sheet.why_put(plan, view, 1000));
        if let Ok(got) = sheet.get(plan, 1000) {
            let mut edited = Value::decode(&got.view);
            edited.edit(&mut Random::new(u64::from(got.steps)));
            judge_edit(sheet, plan, &edited.bytes());
        }
    });
}

/// Whatever the list is, no variable is out of scope.
fn judge_edit(sheet: Sheet, plan: &[u8], view: &[u8]) {
    let refused = sheet.put(plan, view, 1000).err();
    assert_ne!(refused, Some(Refusal::SCOPE));
}
