//! Plans made by a venue's own system, request 10 of document 02.

use reference::tool::{printed, Tool};
use reference::vectors::unhex;
use reference::SCRATCH;

/// What the program prints for a new plan to be judged.
fn check(sheet: &str, old: &str, view: &str, new: &str) -> String {
    let counted = |bytes: &str| format!("{:04X} {bytes}", unhex(bytes).unwrap().len());
    let job = format!("43 0003E8 {} {} {} {new}", counted(sheet), counted(old), counted(view));
    printed(&unhex(&job).unwrap(), Tool::run)
}

/// Variable 0 of two; the node behind it is never met, and names variable 1.
const FIRST: &str = "01 02 00 10 00";
const NAMED: &str = "01 02 00 10 00 10 01";

#[test]
fn yes_and_no() {
    assert_eq!(check(FIRST, "00 00", "01", "01 00"), "ok yes");
    // Another list; a variable that the sheet does not name.
    assert_eq!(check(FIRST, "00 00", "01", "00 00"), "ok no");
    assert_eq!(check(FIRST, "00 00", "01", "01 01"), "ok no");
    // Named in a record that is never met, by a call or by an each.
    assert_eq!(check(NAMED, "00 00", "01", "01 01"), "ok yes");
    assert_eq!(check("01 02 00 20 01 10 00 1A 00 01 09", "00 00", "01", "01 01"), "ok yes");
    assert_eq!(check("01 02 00 20 01 10 00 1A 00 09 01", "00 00", "01", "01 01"), "ok yes");
    assert_eq!(check("01 02 00 20 01 10 00 1C 02 00 01 03 13 13", "00 00", "01", "01 01"), "ok yes");
}

#[test]
fn refusals_in_order() {
    assert_eq!(check("", "", "", ""), "no 14");
    assert_eq!(check(FIRST, "00 07", "", ""), "no 20");
    assert_eq!(check(FIRST, "00 00 00", "07", ""), "no 22");
    assert_eq!(check(FIRST, "00 00", "07", "07"), "no 30");
    assert_eq!(check(FIRST, "00 00", "", "07"), "no 32");
    for new in ["", "00", "00 00 00", "07 00", &"05 00".repeat(200)] {
        assert_eq!(check(FIRST, "00 00", "01", new), "no 85", "{new}");
    }
    // Reading out comes before either comparison.
    assert_eq!(check("01 02 00 1B 01 00 01 10 00", "00 00", "00", "00 01"), "no 43");
    assert_eq!(printed(&unhex("43 000000 0000 0000 0000").unwrap(), Tool::run), "no 3");
    assert_eq!(printed(&unhex("43 0003E8 0000 0000 0001").unwrap(), Tool::run), "no 60");
}

#[test]
fn scratch() {
    let check = |scratch: &mut [u8], allowance| {
        reference::check_plan(&[0x01, 0x01, 0x00, 0x10, 0x00], &[0x00], &[0x01], &[0x01], allowance, scratch)
    };
    let mut scratch = vec![0xEE; SCRATCH + 9];
    assert_eq!(check(&mut scratch[..SCRATCH - 1], 0), 2);
    assert_eq!(check(&mut scratch, 0), 3);
    assert_eq!(check(&mut scratch, 1_000_001), 3);
    assert!(scratch.iter().all(|&byte| byte == 0xEE));
    assert_eq!(check(&mut scratch, 1000), 1 << 8);
    assert!(scratch[..SCRATCH].iter().all(|&byte| byte == 0) && scratch[SCRATCH..] == [0xEE; 9]);
}
