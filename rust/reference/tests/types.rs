//! The check of a sheet by types, request 6 of document 02.

use reference::tool::{printed, Tool};
use reference::vectors::unhex;

/// What the program prints for a sheet and its types.
fn check(sheet: &str, types: &str) -> String {
    let length = unhex(sheet).unwrap().len();
    printed(&unhex(&format!("54 {length:04X} {sheet} {types}")).unwrap(), Tool::run)
}

#[test]
fn each_kind() {
    // Types: of the plan, the view, each node.
    assert_eq!(check("01 01 00 10 00", "32 31  32 31  32 31"), "ok");
    assert_eq!(check("01 01 00 10 00", "32 31  32 30  32 30"), "no 82 0");
    assert_eq!(check("01 01 00 10 01", "30  30  30"), "no 82 0");
    assert_eq!(check("01 01 00 12", "30  30  30"), "ok");
    assert_eq!(check("01 01 00 13", "30  32 33 30 31  32 33 30 31"), "ok");
    assert_eq!(check("01 01 00 1D 00 01 00 00", "30  31  31"), "ok");
    assert_eq!(check("01 01 00 14 00 01", "30  30  30"), "no 82 0");
    assert_eq!(check("01 01 00 15 01 02 10 00 13", "31  32 31  32 31  31  32 31"), "ok");
    // The parent is to blame where a child's type does not fit it.
    assert_eq!(check("01 01 00 15 01 02 10 00 13", "31  32 31  32 31  31  32 30"), "no 82 0");
    assert_eq!(check("01 01 00 16 01 02 10 00 13", "31  33 31 32 30  33 31 32 30  31  32 30"), "ok");
    assert_eq!(check("01 01 00 1B 01 00 01 10 00", "31  31  31  31"), "ok");
    assert_eq!(check("01 01 00 1B 01 00 01 10 00", "30  31  31  30"), "no 82 0");
    assert_eq!(check("01 01 00 18 01 02 00 03 00 10 00 11 12", "30  30  30  30  30  30"), "ok");
    assert_eq!(check("01 01 00 19 01 02 10 00 10 02", "33 30 31  31  31  33 30 31  31"), "ok");
}

/// The first member of variable 0, which is a list of numbers, or 7; defaults are a number of the view and the empty list.
const FIRST: &str = "01 01 00 17 01 02 00 03 00 04 05 10 00 14 00 07 10 01";

#[test]
fn scopes_of_defaults() {
    let types = "32 31  31  31  32 31  31  31  31  32 31";
    assert_eq!(check(&format!("{FIRST} 10 00 13"), types), "ok");
    // Variable 0 is the view, and there is no other.
    assert_eq!(check(&format!("{FIRST} 10 01 13"), types), "no 82 4");
    assert_eq!(check(&format!("{FIRST} 10 00 10 00"), types), "no 82 5");
    // The default of a 1C has none.
    let each = "01 01 00 20 03 1C 01 00 00 02 10 00";
    let types = "32 31  31 32 31 31  32 31  32 31  32 31  31  31";
    assert_eq!(check(&format!("{each} 14 00 00 10 00"), types), "ok");
    assert_eq!(check(&format!("{each} 10 00 10 00"), types), "no 82 2");
    assert_eq!(check(&format!("{each} 14 00 00 10 01"), types), "no 82 3");
}

#[test]
fn refusals_in_order() {
    // Malformed, too long, too few, too many.
    for types in ["", "30 30", "30 30 34", "30 30 32", "30 30 33 30", "30 30 30 30"] {
        assert_eq!(check("01 01 00 10 00", types), "no 80", "{types}");
    }
    let long = |lists: usize| format!("{} 30", "32".repeat(lists));
    assert_eq!(check("01 01 00 10 00", &long(255).repeat(3)), "ok");
    assert_eq!(check("01 01 00 10 00", &long(256).repeat(3)), "no 80");
    // A node that is used twice comes before one of a wrong type, and behind the types.
    assert_eq!(check("01 01 00 16 01 01 11", "30 30 31 31"), "no 81 1");
    assert_eq!(check("01 01 00 16 01 01 11", "30 30 31"), "no 80");
    assert_eq!(check("01 01 00 16 01 00 11", "30"), "no 13");
    // The lowest: the root's place before its children, a section's root that nobody calls; a node that is not reached may have any type.
    assert_eq!(check("01 01 01 20 00 11 12", "30  30 30 31  30  30 30"), "no 82 0");
    assert_eq!(check("01 01 01 20 00 11 12", "30  30 30 30  31  30 30"), "no 82 1");
    assert_eq!(check("01 01 01 11 12", "30  30  31 30"), "ok");
}

/// Splits within splits, 99 deep: the scope is wider, and the sheet deeper, than a walk can go.
#[test]
fn wide_and_deep() {
    let splits: String = (0..99).map(|own| format!("19 {:02X} {:02X} 10 00 ", 2 * own + 1, 2 * own + 2)).collect();
    let types = format!("33 30 31  31  {} 31", "31 33 30 31 ".repeat(99));
    assert_eq!(check(&format!("01 01 00 {splits} 10 C6"), &types), "ok");
    assert_eq!(check(&format!("01 01 00 {splits} 10 C5"), &types), "no 82 198");
    assert_eq!(check(&format!("01 01 00 {splits} 10 C7"), &types), "no 82 198");
}
