//! Which variables a put wrote, request 8 of document 02.

use reference::tool::{printed, Tool};
use reference::vectors::unhex;

/// What the program prints for a put that tells which variables took a view.
fn put(sheet: &str, plan: &str, view: &str) -> String {
    let counted = |bytes: &str| format!("{:04X} {bytes}", unhex(bytes).unwrap().len());
    printed(&unhex(&format!("57 0003E8 {} {} {view}", counted(sheet), counted(plan))).unwrap(), Tool::run)
}

#[test]
fn none_some_and_all() {
    assert_eq!(put("01 02 00 12", "00 00", "01"), "ok 1 0000 0000");
    assert_eq!(put("01 02 00 10 01", "00 00", "01"), "ok 1 0001 0002");
    assert_eq!(put("01 02 00 16 01 02 10 00 10 01", "00 00", "05 01 02"), "ok 3 0102 0003");
    // The last of 16.
    assert_eq!(put("01 10 00 10 0F", &"00 ".repeat(16), "01"), format!("ok 1 {}01 8000", "00".repeat(15)));
}

#[test]
fn with_its_old_value() {
    assert_eq!(put("01 02 00 10 01", "00 01", "01"), "ok 1 0001 0002");
    assert_eq!(put("01 01 00 16 01 02 10 00 10 00", "00", "05 00 00"), "ok 3 00 0001");
}

/// A truth case whose subject is a truth case on variable 0: variable 1 where that is False, variable 2 where it is True.
const CHOSEN: &str = "01 03 00 18 01 02 03 03 04 18 04 05 03 06 04 11 12 10 00 10 01 10 02";

#[test]
fn a_variable_that_is_only_read() {
    assert_eq!(put(CHOSEN, "00 00 00", "01"), "ok 9 010001 0005");
    assert_eq!(put(CHOSEN, "00 00 00", "00"), "ok 9 000000 0003");
}

#[test]
fn the_cells_of_a_branch() {
    // A list case whose branch with members writes the first alone; variable 1 takes no view.
    let opens = "01 02 00 17 01 02 01 03 00 04 05 10 00 13 10 02 12 13";
    assert_eq!(put(opens, "02 02", "01"), "ok 6 03010202 0001");
    // An each whose section gives its variable 1, which is the caller's.
    let shared = "01 02 00 20 02 1C 01 00 01 01 10 00 10 01";
    assert_eq!(put(shared, "03 00 02 01", "03 00 02"), "ok 4 03000200 0003");
    assert_eq!(put(shared, "02 01", "02"), "ok 3 0201 0001");
}

#[test]
fn refused() {
    assert_eq!(put("01 01 00 16 01 02 10 00 10 00", "00", "05 00 01"), "no 54");
    assert_eq!(put("01 01 00 10 00", "00", ""), "no 32");
    assert_eq!(printed(&unhex("57 0003E8 0005 0101001000 0001").unwrap(), Tool::run), "no 60");
}
