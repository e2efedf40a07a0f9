//! How much longer the list can get, request 14 of document 02.

use reference::growth;
use reference::tool::{printed, Tool};
use reference::vectors::unhex;

/// What the program prints for a variable and a sheet.
fn asked(variable: u8, sheet: &str) -> String {
    printed(&unhex(&format!("52 {variable:02X} {sheet}")).unwrap(), Tool::run)
}

#[test]
fn as_often_as_it_is_entered() {
    assert_eq!(asked(0, "01 01 00 10 00"), "ok 1");
    assert_eq!(asked(0, "01 02 00 10 01"), "ok 0");
    assert_eq!(asked(0, "01 01 00 16 01 02 10 00 1B 03 00 07 10 00"), "ok 2");
    // A node that is used twice counts twice; one that is never met does not.
    assert_eq!(asked(0, "01 01 00 16 01 01 10 00 10 00"), "ok 2");
    assert_eq!(asked(1, "01 02 00 15 01 02 15 02 02 10 01"), "ok 3");
}

/// Pairs that double the count with each node.
fn doubled(pairs: u8) -> String {
    let pairs: String = (1..=pairs).map(|next| format!("16 {next:02X} {next:02X} ")).collect();
    format!("01 01 00 {pairs} 10 00")
}

#[test]
fn refusals_in_order() {
    assert_eq!(asked(0, &doubled(8)), "ok 256");
    assert_eq!(asked(0, &doubled(9)), "no 88");
    assert_eq!(asked(0, &doubled(99)), "no 88");
    assert_eq!(asked(0, &format!("{} 16 0A 0A 10 00", doubled(8))), "ok 256");
    assert_eq!(asked(1, &doubled(9)), "no 23");
    // Another kind, met or not, comes before the variable.
    assert_eq!(asked(1, &format!("{} 1A 00 00 00", doubled(9))), "no 13");
    assert_eq!(asked(1, "01 01 01 18 01 02 00 03 00 10 00 11 12"), "no 87");
    assert_eq!(asked(1, "01 01 01 20 00 1A 00 00 00 10 00"), "no 87");
    assert_eq!(asked(0, ""), "no 14");
    assert_eq!(printed(&[0x52], Tool::run), "no 60");
    let plain = unhex("01 01 00 10 00").unwrap();
    assert_eq!([0, 1, 256, usize::MAX].map(|variable| growth(&plain, variable)), [1 << 8, 23, 23, 23]);
}
