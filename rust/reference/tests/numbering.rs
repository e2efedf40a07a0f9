//! One numbering for a sheet file, request 12 of document 02.

use reference::tool::{printed, Tool};
use reference::vectors::unhex;

/// What the program prints for a sheet to be numbered.
fn number(sheet: &str) -> String {
    printed(&unhex(&format!("4E {sheet}")).unwrap(), Tool::run)
}

#[test]
fn as_first_met() {
    assert_eq!(number("01 01 00 16 01 02 10 00 13"), "ok 010100160102100013");
    // A node before its children, each with all below it before the next; the node that nobody uses is dropped.
    assert_eq!(number("01 01 01 12 16 03 02 13 15 04 05 11 13"), "ok 010100160104150203111313");
    // Sections behind the main root, called or not, in their order; a call leads to no node.
    assert_eq!(number("01 01 02 20 03 20 01 13 11 1A 00 00 00 12"), "ok 010100200120021A0000001211");
}

#[test]
fn used_twice() {
    assert_eq!(number("01 01 00 16 02 02 11 12"), "no 81 2");
    // The lowest, also where only a node that is never met uses it, and of roots.
    assert_eq!(number("01 01 01 16 02 03 16 02 03 11 12"), "no 81 2");
    assert_eq!(number("01 01 00 20 00 11"), "no 81 0");
    assert_eq!(number("01 01 00 20 01 20 01 11 12"), "no 81 1");
    assert_eq!(number("01 01 00 20 01 16 01 02 11 12"), "no 81 1");
    // The sheet's own refusals come first.
    assert_eq!(number("01 01 00 16 01 01 11 19 00 00"), "no 13");
    assert_eq!(number(""), "no 14");
}

#[test]
fn the_output() {
    let sheet = unhex("01 01 00 16 02 02 11 12").unwrap();
    assert_eq!(reference::number(&sheet, &mut [0; 2047]), 1);
    assert_eq!(reference::number(&sheet, &mut [0; 2048]), 2 << 8 | 81);
    let mut out = [0xEE; 2100];
    assert_eq!(reference::number(&[0x01, 0x01, 0x00, 0x11], &mut out), 4 << 8);
    assert_eq!((&out[..4], &out[4..]), (&[0x01, 0x01, 0x00, 0x11][..], &[0xEE; 2096][..]));
}
