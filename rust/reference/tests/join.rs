//! Two sheets joined into one, request 7 of document 02.

use reference::tool::{printed, Tool};
use reference::vectors::unhex;

/// What the program prints for two sheets to be joined.
fn join(first: &str, second: &str) -> String {
    let length = unhex(first).unwrap().len();
    printed(&unhex(&format!("4A {length:04X} {first} {second}")).unwrap(), Tool::run)
}

#[test]
fn the_pair_of_both() {
    assert_eq!(join("01 01 00 10 00", "01 01 00 11"), "ok 010100160102100011");
    // Roots, nodes and sections are shifted; variables, tests and numbers stay.
    let add = "01 02 00 1B 01 00 64 10 00";
    let each = "01 02 01 20 00 10 01 1C 02 00 01 03 13 11";
    assert_eq!(join(add, each), "ok 01020020031601041B020064100010011C050001061311");
    let truth = "01 01 00 20 01 18 01 02 03 03 04 10 00 11 12";
    let list = "01 01 01 20 00 11 17 02 03 01 04 02 05 06 10 00 13 1A 00 01 02 12 13";
    assert_eq!(join(truth, list), "ok 0101002002200516010618020303040410001112111707080109020A0B1000131A0101021213");
}

#[test]
fn refusals_in_order() {
    assert_eq!(join("", "01 01 00 10"), "no 14");
    assert_eq!(join("01 01 00 10 00", "01 01 00 10"), "no 11");
    assert_eq!(join("01 01 00 10 00", "01 02 00 10 00"), "no 83");
    let sheet = |k: u8, sections: usize, nodes: usize| format!("01 {k:02X} 00 {} {}", "20 00".repeat(sections), "11".repeat(nodes));
    assert_eq!(join(&sheet(1, 0, 100), &sheet(2, 0, 100)), "no 83");
    assert_eq!(join(&sheet(1, 0, 100), &sheet(1, 0, 100)), "no 84");
    assert_eq!(join(&sheet(1, 0, 200), &sheet(1, 0, 1)), "no 84");
    assert!(join(&sheet(1, 0, 100), &sheet(1, 0, 99)).starts_with("ok 010100160165"));
    assert_eq!(join(&sheet(1, 4, 1), &sheet(1, 5, 1)), "no 84");
    assert!(join(&sheet(1, 4, 1), &sheet(1, 4, 1)).starts_with("ok 01010020012001"));
    assert_eq!(reference::join(&[], &[], &mut [0; 2047]), 1);
    assert_eq!(reference::join(&[], &[], &mut [0; 2048]), 14);
}
