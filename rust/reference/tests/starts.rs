//! A plan's values found by their starts, request 2 of document 02, and a file of inputs of `tools` (`LENS_TOOL_VECTORS`).

use reference::tool::{printed, Tool};
use reference::vectors::{check_tools, unhex};
use reference::{find, from_front, load, part, STARTS_MAX};

/// A pair of variables 0 and 1 out of three.
const PAIR: &str = "01 03 00 16 01 02 10 00 10 01";
/// [1], True, 7.
const PLAN: &str = "03 04 00 01 02 01 04 00 07";

fn tool(letter: &str, fields: &str) -> String {
    printed(&unhex(&format!("{letter} {fields}")).unwrap(), Tool::run)
}

/// Hexadecimal behind its length.
fn counted(bytes: &str) -> String {
    format!("{:04X} {bytes}", unhex(bytes).unwrap().len())
}

#[test]
fn loading() {
    let load = |sheet: &str, plan: &str| tool("4C", &(counted(sheet) + plan));
    assert_eq!(load(PAIR, PLAN), "ok 0 5 6");
    assert_eq!(load(PAIR, "00 01 02"), "ok 0 1 2");
    assert_eq!(load(PAIR, "06 00 01 00 00 04 FF FF 06 FF FF FF FF"), "ok 0 5 8");
    assert_eq!(load(PAIR, "06 00 00 FF FF 04 FF FF 06 FF FF FF FF"), "no 20");
    assert_eq!(load(PAIR, ""), "no 22");
    assert_eq!(load(PAIR, "00 01"), "no 22");
    assert_eq!(load(PAIR, "00 01 02 02"), "no 22");
    assert_eq!(load(PAIR, "00 01 07"), "no 20");
    assert_eq!(load(PAIR, &format!("{} 00 01 02", "05 00".repeat(128))), "no 21");
    // The sheet is judged first, and whole.
    assert_eq!(load("", ""), "no 14");
    assert_eq!(load("01 03 00 10", "07"), "no 11");
    assert_eq!(load("01 11 00 10 00", "07"), "no 13");
    // Variables out of scope are no matter of loading.
    assert_eq!(load("01 01 00 10 09", "01"), "ok 0");
    let full = format!("{} 00", "05 00".repeat(127));
    let starts: Vec<String> = (0..16).map(|i| (255 * i).to_string()).collect();
    assert_eq!(load("01 10 00 10 00", &full.repeat(16)), format!("ok {}", starts.join(" ")));
}

#[test]
fn values_by_number() {
    let value = |number: &str, starts: &str| tool("56", &format!("{number} {starts} {PLAN}"));
    assert_eq!(value("00", "03 0000 0005 0006"), "ok 0304000102");
    assert_eq!(value("01", "03 0000 0005 0006"), "ok 01");
    assert_eq!(value("02", "03 0000 0005 0006"), "ok 040007");
    assert_eq!(value("03", "03 0000 0005 0006"), "no 23");
    assert_eq!(value("FF", "03 0000 0005 0006"), "no 23");
    // Fewer starts are starts too: the last part goes to the end.
    assert_eq!(value("00", "01 0000"), "ok 030400010201040007");
    assert_eq!(value("01", "01 0000"), "no 23");
}

#[test]
fn damaged_starts() {
    let value = |number: &str, starts: &str| tool("56", &format!("{number} {starts} {PLAN}"));
    for (starts, why) in [
        ("00", "none"),
        ("01 0001", "the first is not 0"),
        ("02 0001 0005", "the first is not 0"),
        ("03 0000 0006 0005", "they fall"),
        ("03 0000 0005 0005", "two are equal"),
        ("02 0000 0000", "two are equal"),
        ("02 0000 0009", "the last is the plan's length"),
        ("02 0000 FFFF", "the last is over the plan's length"),
        ("03 0000 0009 0005", "they fall from the plan's length"),
    ] {
        assert_eq!(value("00", starts), "no 24", "{why}");
        // Also where there is no such variable.
        assert_eq!(value("03", starts), "no 24", "{why}");
    }
    let many = |count: u8| format!("{count:02X}{}", (0..count).map(|i| format!("{i:04X}")).collect::<String>());
    let plan = "00".repeat(20);
    assert_eq!(tool("56", &format!("0F {} {plan}", many(16))), "ok 0000000000");
    assert_eq!(tool("56", &format!("10 {} {plan}", many(16))), "no 23");
    assert_eq!(tool("56", &format!("0F {} {plan}", many(17))), "no 24");
    assert_eq!(tool("56", "00 01 0000"), "no 24");
}

#[test]
fn any_lengths_and_variables() {
    assert_eq!(find(&[0, 65_535], usize::MAX, 0), Ok(0..65_535));
    assert_eq!(find(&[0, 65_535], usize::MAX, 1), Ok(65_535..usize::MAX));
    assert_eq!(find(&[0, 65_535], 65_536, 1), Ok(65_535..65_536));
    assert_eq!(find(&[0, 65_535], 65_535, 1), Err(24));
    assert_eq!(find(&[0, 1], usize::MAX, usize::MAX), Err(23));
    assert_eq!(find(&[0, 1], 0, usize::MAX), Err(24));
    assert_eq!(part(&[0, 1], &[0x00, 0x01], 2), []);
    assert_eq!(part(&[0, 2], &[0x00, 0x01], 0), []);
}

#[test]
fn as_a_reading_from_the_front() {
    let (sheet, plan) = (unhex(PAIR).unwrap(), unhex(PLAN).unwrap());
    let mut starts = [7; STARTS_MAX];
    assert_eq!(load(&sheet, &plan, &mut starts), 3 << 24);
    assert_eq!(starts[3..], [7; STARTS_MAX - 3]);
    for variable in 0..3 {
        assert_eq!(from_front(&plan, variable), Some(part(&starts[..3], &plan, variable)));
    }
    assert_eq!(from_front(&plan, 3), None);
    assert_eq!(load(&sheet, &plan[..8], &mut [7; STARTS_MAX]), 20);
}

#[test]
fn starts_of_a_put() {
    let put = |view: &str, allowance: u32| tool("53", &format!("{allowance:06X} {} {} {view}", counted(PAIR), counted(PLAN)));
    assert_eq!(put("05 02 04 00 09", 3), "ok 3 02040009040007 0 1 4");
    assert_eq!(put("05 03 04 00 01 02 01", 1000), "ok 3 030400010201040007 0 5 6");
    assert_eq!(put("05 02 04 00 09", 2), "no 41");
    assert_eq!(put("05 02 04 00 09", 0), "no 3");
    assert_eq!(put("02", 1000), "no 51");
    assert_eq!(put("", 1000), "no 32");
}

#[test]
fn no_such_input() {
    for input in ["", "4C", "4C 00", "4C 0001", "56", "56 00", "56 00 01 00", "53 0003E8", "47 000003 0000 0000", "00"] {
        assert_eq!(printed(&unhex(input).unwrap(), Tool::run), "no 60", "{input}");
    }
    let long = |length: usize| [&[0x4C, 0, 0][..], &vec![0; length - 3]].concat();
    assert_eq!(printed(&long(8192), Tool::run), "no 14");
    assert_eq!(printed(&long(8193), Tool::run), "no 61");
}

#[test]
fn inputs_of_a_file() {
    check_tools(|input| printed(input, Tool::run));
}
