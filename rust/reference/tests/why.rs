//! Why a call is refused, request 9 of document 02: the number, the node, its depth, the chain from the root, and for 54 the first writer.

use reference::vectors::unhex;
use reference::{why_get, why_put, SCRATCH};

fn told(sheet: &str, plan: &str, view: Option<&str>, allowance: u32) -> String {
    let (sheet, plan, view) = (unhex(sheet).unwrap(), unhex(plan).unwrap(), view.map(|view| unhex(view).unwrap()));
    let mut scratch = vec![1; SCRATCH + 1];
    let result = match &view {
        None => why_get(&sheet, &plan, allowance, &mut scratch),
        Some(view) => why_put(&sheet, &plan, view, allowance, &mut scratch),
    };
    let zeroed = scratch[..SCRATCH].iter().all(|&byte| byte == 0);
    assert_eq!(zeroed, !matches!(&result, Err(explanation) if explanation.refusal < 4));
    assert_eq!(scratch[SCRATCH], 1);
    result.map_or_else(|explanation| explanation.line(), |()| "ok".to_string())
}

fn get(sheet: &str, plan: &str) -> String {
    told(sheet, plan, None, 1000)
}

fn put(sheet: &str, plan: &str, view: &str) -> String {
    told(sheet, plan, Some(view), 1000)
}

/// One value to a list of one member.
const Q: &str = "01 01 00 15 01 02 10 00 13";
/// The pair of variable 0 and variable 0.
const T: &str = "01 01 00 16 01 02 10 00 10 00";
/// The pair of such a pair and variable 0.
const THRICE: &str = "01 01 00 16 01 04 16 02 03 10 00 10 00 10 00";
/// Joins two lists.
const J: &str = "01 02 00 20 01 1A 00 00 01 17 02 03 00 04 02 07 08 10 00 10 01 15 05 06 10 02 1A 00 03 01 11 13";

#[test]
fn no_refusal_and_those_before_the_walk() {
    assert_eq!(get(T, "04 00 07"), "ok");
    assert_eq!(put(T, "04 00 07", "05 01 01"), "ok");
    assert_eq!(get("", "04 00 07"), "no 14");
    assert_eq!(get(T, "04 00"), "no 20");
    assert_eq!(put(T, "04 00 07", "02 02"), "no 32");
    assert_eq!(told(T, "04 00 07", None, 0), "no 3");
    assert_eq!(told(T, "04 00 07", Some("02"), 1_000_001), "no 3");
    let short = why_get(&unhex(T).unwrap(), &[0x01], 0, &mut [1; SCRATCH - 1]);
    assert_eq!(short.unwrap_err().line(), "no 2");
}

#[test]
fn what_could_not_be_entered() {
    // Not the last node that was entered, 1 and then 3.
    assert_eq!(told(Q, "04 00 07", None, 2), "no 41 2 2 0 2");
    assert_eq!(told(THRICE, "01", None, 4), "no 41 4 2 0 4");
    assert_eq!(told(THRICE, "01", Some("05 05 01 01 01"), 4), "no 41 4 2 0 4");
    let members = |count: usize| format!("{}02 02", "03 00 ".repeat(count));
    assert_eq!(get(J, &members(15)), "ok");
    assert_eq!(get(J, &members(16)), format!("no 40 5 49 0{} 1 4 5", " 1 4 6".repeat(15)));
    let list = "03 00 ".repeat(16) + "02";
    assert_eq!(put(J, &members(16), &list), format!("no 40 5 49 0{} 1 4 5", " 1 4 6".repeat(15)));
}

#[test]
fn the_node_whose_own_rule_refuses() {
    // A variable, though 2 and 3 were entered deeper; the call; the each.
    let outside = THRICE.replace("10 00 10 00 10 00", "10 00 10 00 10 05");
    assert_eq!(get(&outside, "01"), "no 42 4 2 0 4");
    assert_eq!(get("01 01 00 20 01 1A 00 00 05 10 00", "01"), "no 42 0 1 0");
    assert_eq!(get("01 01 00 20 02 1C 01 00 01 02 10 00 11", "02"), "no 42 0 1 0");
    // The front and not its rest; the case and not its subject or its branch; the sum and not what it adds to.
    assert_eq!(get("01 01 00 15 01 02 10 00 10 00", "01"), "no 43 0 1 0");
    assert_eq!(get("01 01 00 18 01 02 03 03 04 10 00 12 12", "02"), "no 43 0 1 0");
    assert_eq!(get("01 01 00 18 01 02 03 03 04 10 00 12 12", "00"), "no 46 0 1 0");
    assert_eq!(get("01 01 00 1B 01 00 64 10 00", "04 FF 9C"), "no 45 0 1 0");
    assert_eq!(put("01 01 00 18 01 02 04 03 04 10 00 12 12", "00", "00"), "no 53 0 1 0");
    assert_eq!(put("01 01 00 1B 01 00 64 10 00", "04 00 07", "04 00 63"), "no 52 0 1 0");
    // The constant, below the front that takes the list apart.
    assert_eq!(put(Q, "04 00 07", "03 01 03 01 02"), "no 50 2 2 0 2");
    assert_eq!(put(Q, "04 00 07", "02"), "no 51 0 1 0");
}

#[test]
fn a_rebuilt_subject() {
    // The case and the split, and not the variable that was written, nor the subject.
    let rest = "01 01 00 17 01 02 01 03 00 04 05 10 00 13 10 02 12 13";
    assert_eq!(put(rest, "02", "01"), "no 43 0 1 0");
    let long = format!("{}02", "03 00 ".repeat(62));
    let half = "01 01 00 19 01 02 10 00 10 01";
    assert_eq!(put(half, &format!("05 00 {long}"), &format!("03 02 03 02 03 02 {long}")), "no 44 0 1 0");
    // The each, at the first member that is too much.
    let each = "01 01 00 20 02 1C 01 00 00 03 10 00 11 1D 00 01 00 00";
    assert_eq!(put(each, "02", &format!("{}02", "03 00 ".repeat(64))), "no 44 0 1 0");
    assert_eq!(put(each, "02", "03 00 03 01 02"), "no 50 2 2 0 2");
}

#[test]
fn who_wrote_first() {
    assert_eq!(put(T, "04 00 07", "05 00 01"), "no 54 2 2 0 2 by 1");
    // The second wrote the same as the first.
    assert_eq!(put(THRICE, "04 00 07", "05 05 00 00 01"), "no 54 4 2 0 4 by 2");
    // In a section, the caller's variable; a member's variable is each time another.
    assert_eq!(
        put("01 01 00 20 03 16 01 02 10 00 1A 00 00 00 16 04 05 10 00 10 01", "00", "05 01 05 01 00"),
        "no 54 5 4 0 2 3 5 by 1"
    );
    let shared = "01 02 00 20 02 1C 01 00 01 01 10 00 10 01";
    assert_eq!(put(shared, "03 00 03 00 02 01", "03 00 03 01 02"), "no 54 2 2 0 2 by 2");
    let members = "01 02 00 20 02 1C 01 00 01 01 10 00 10 00";
    assert_eq!(put(members, "03 00 03 00 02 01", "03 00 03 01 02"), "ok");
}
