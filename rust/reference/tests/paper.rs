//! The examples of document 01, the node 1C of document 02, and a file of jobs (`LENS_VECTORS`).

mod jobs;

use jobs::{get, list, ok, put, run};
use reference::job::{printed, Job};
use reference::vectors::{check_jobs, unhex};

const P: &str = "01 01 00 10 00";
const Q: &str = "01 01 00 15 01 02 10 00 13";
const T: &str = "01 01 00 16 01 02 10 00 10 00";
const H: &str = "01 01 00 1B 01 00 64 10 00";
const B: &str = "01 01 00 18 01 02 04 03 04 10 00 12 12";
const B3: &str = "01 01 00 18 01 02 03 03 04 10 00 12 12";
const J: &str = "01 02 00 20 01 1A 00 00 01 17 02 03 00 04 02 07 08 10 00 10 01 15 05 06 10 02 1A 00 03 01 11 13";

#[test]
fn examples_of_the_paper() {
    let seven = "04 00 07";
    assert_eq!(get(P, "04 00 BA"), "ok 1 0400BA");
    assert_eq!(put(P, seven, "01"), "ok 1 01");
    assert_eq!(get(Q, seven), "ok 3 0304000702");
    assert_eq!(run(Q, seven, None, 2), "no 41");
    assert_eq!(put(Q, seven, "02"), "no 51");
    assert_eq!(put(Q, seven, "03 04 00 08 03 04 00 09 02"), "no 50");
    assert_eq!(put(T, seven, "05 04 00 07 04 00 08"), "no 54");
    assert_eq!(put(T, seven, "05 04 00 08 04 00 08"), "ok 3 040008");
    assert_eq!(get(H, "04 FF 9B"), "ok 2 04FFFF");
    assert_eq!(get(H, "04 FF 9C"), "no 45");
    assert_eq!(put(H, seven, "04 00 64"), "ok 2 040000");
    assert_eq!(put(H, seven, "04 00 63"), "no 52");
    assert_eq!(get(B, "00"), "ok 3 01");
    assert_eq!(put(B, "00", "00"), "no 53");
    assert_eq!(get(B3, "00"), "no 46");
}

#[test]
fn joining_two_lists() {
    let plan = list(&[1, 2]) + &list(&[3, 4, 5]);
    let bytes = |lists: &[&[u32]]| lists.iter().map(|l| list(l)).collect::<String>().replace(' ', "");
    assert_eq!(get(J, &plan), format!("ok 14 {}", bytes(&[&[1, 2, 3, 4, 5]])));
    assert_eq!(put(J, &plan, &list(&[6, 7, 8, 9, 10])), format!("ok 17 {}", bytes(&[&[6, 7], &[8, 9, 10]])));
    assert_eq!(put(J, &plan, &list(&[6])), format!("ok 11 {}", bytes(&[&[6], &[]])));
    let numbers: Vec<u32> = (0..16).collect();
    assert!(get(J, &(list(&numbers[..15]) + "02")).starts_with("ok"));
    assert_eq!(get(J, &(list(&numbers) + "02")), "no 40");
}

/// Adds 100 to each member of variable 0; the default is 9.
const RAISE: &str = "01 01 00 20 03 1C 01 00 00 02 10 00 14 00 09 1B 04 00 64 10 00";
/// A pair of each member of variable 0 and of variable 1; the default is 9.
const BESIDE: &str = "01 02 00 20 03 1C 01 00 01 02 10 00 14 00 09 16 04 05 10 00 10 01";
/// Variable 1, once for each member of variable 0; the default is 9.
const COUNT: &str = "01 02 00 20 03 1C 01 00 01 02 10 00 14 00 09 10 01";
/// Lists within lists, as deep as they go; the default is the empty list.
const NEST: &str = "01 01 00 20 00 1C 01 00 00 02 10 00 13";

fn row(numbers: std::ops::Range<u32>) -> String {
    list(&numbers.collect::<Vec<u32>>())
}

#[test]
fn each_member() {
    assert_eq!(get(RAISE, "02"), ok(2, "02"));
    assert_eq!(put(RAISE, "02", "02"), ok(3, "02"));
    assert_eq!(get(RAISE, &row(0..63)), ok(128, &row(100..163)));
    assert_eq!(put(RAISE, &row(0..63), &row(200..263)), ok(129, &row(100..163)));
    assert_eq!(put(RAISE, &row(0..3), &row(200..202)), ok(7, &row(100..102)));
    assert_eq!(run(RAISE, &row(0..3), None, 7), "no 41");
    assert_eq!(get(RAISE, "04 00 07"), "no 43");
    assert_eq!(get(RAISE, "03 00 02"), "no 43");
    assert_eq!(put(RAISE, "00", "00"), "no 51");
    assert_eq!(put(RAISE, "00", "02"), "no 43");
}

#[test]
fn members_past_the_old_end() {
    // A step for each default, each time.
    assert_eq!(put(RAISE, &row(0..1), &row(200..203)), ok(11, &row(100..103)));
    assert_eq!(put(COUNT, "02 04 00 07", &list(&[5, 5])), ok(7, &(list(&[9, 9]) + "04 00 05")));
    assert_eq!(put(COUNT, &(list(&[1]) + "04 00 07"), &list(&[5, 5])), ok(6, &(list(&[1, 9]) + "04 00 05")));
    assert_eq!(put(COUNT, &(list(&[1, 2]) + "04 00 07"), &list(&[5])), ok(4, &(list(&[1]) + "04 00 05")));
}

#[test]
fn the_callers_variable() {
    assert_eq!(get(BESIDE, &(list(&[1, 2]) + "01")), ok(8, "03 05 04 00 01 01 03 05 04 00 02 01 02"));
    let put = |view: &str| put(BESIDE, &(list(&[1, 2]) + "01"), view);
    assert_eq!(put("03 05 04 00 03 00 03 05 04 00 04 00 02"), ok(9, &(list(&[3, 4]) + "00")));
    assert_eq!(put("03 05 04 00 03 00 03 05 04 00 04 01 02"), "no 54");
    let out_of_scope = BESIDE.replace("1C 01 00 01", "1C 01 00 02");
    for plan in ["02 01", "03 01 02 01"] {
        assert_eq!(get(&out_of_scope, plan), "no 42");
        assert_eq!(self::put(&out_of_scope, plan, "02"), "no 42");
    }
    assert_eq!(get(&out_of_scope, "01 01"), "no 43");
    assert_eq!(get(&BESIDE.replace("1C 01 00 01", "1C 01 00 FF"), "02 01"), "no 42");
}

#[test]
fn the_length_of_a_list() {
    // A list of n True beside a value of m bytes: n members of m + 3 bytes with their 03, and the 02.
    let trues = |n: usize| "03 01 ".repeat(n) + "02 ";
    let value = |m: usize| "05 00 ".repeat((m - 1) / 2) + "00";
    assert!(get(BESIDE, &(trues(5) + &value(47))).starts_with("ok 17 "));
    assert_eq!(get(BESIDE, &(trues(5) + &value(49))), "no 44");
    assert!(get(COUNT, &(trues(1) + &value(253))).starts_with("ok 3 "));
    assert_eq!(get(COUNT, &(trues(1) + &value(255))), "no 44");
    // The fifth member is too much, and the steps of the others are not taken.
    assert_eq!(run(COUNT, &(trues(9) + &value(55)), None, 7), "no 44");
    assert_eq!(run(COUNT, &(trues(9) + &value(55)), None, 6), "no 41");
    // Seven defaults of 31 bytes fit a list, an eighth does not.
    let pairs = "16 04 04 16 05 05 16 06 06 16 07 07 11";
    let sheet = format!("01 02 00 20 02 1C 01 00 01 03 10 00 10 01 {pairs}");
    assert!(run(&sheet, "02 00", Some(&trues(7)), 1000).starts_with("ok 227 "));
    assert_eq!(run(&sheet, "02 00", Some(&trues(8)), 1000), "no 44");
    assert_eq!(run(&sheet, "02 00", Some(&trues(9)), 258), "no 44");
    assert_eq!(run(&sheet, "02 00", Some(&trues(9)), 257), "no 41");
}

/// A list of a list of a list ..., the last one empty.
fn lists(n: usize) -> String {
    "03".repeat(n) + &"02".repeat(n + 1)
}

#[test]
fn lists_within_lists() {
    assert_eq!(get(NEST, &lists(46)), ok(94, &lists(46)));
    assert_eq!(get(NEST, &lists(47)), "no 40");
    assert_eq!(put(NEST, &lists(46), &lists(46)), ok(141, &lists(46)));
    assert_eq!(put(NEST, "02", &lists(46)), ok(187, &lists(46)));
    assert_eq!(put(NEST, "02", &lists(47)), "no 40");
    assert_eq!(put(NEST, &lists(46), "02"), ok(3, "02"));
}

/// The most that a put keeps at each level: an old list, the list that is being rebuilt and a default, all as long as they may be.
#[test]
fn full_values_at_each_level() {
    // The old list is made of variable 1, a list of 255 bytes; a list case lets it take [ ]. The default has 255 bytes, 8 levels deep.
    let old = "17 02 03 01 04 02 06 06 10 01 13 15 05 06 10 02 13";
    let default = "16 08 08 16 09 09 16 0A 0A 16 0B 0B 16 0C 0C 16 0D 0D 16 0E 0E 11";
    let sheet = format!("01 02 00 20 00 1C 01 00 01 07 {old} {default}");
    let plan = format!("02 03 {} 00 02", "05 00".repeat(126));
    // [[ ], [[ ], ...]]: each second member goes one level down.
    let view = |n: usize| "03 02 03".repeat(n) + "02" + &"02".repeat(n);
    assert_eq!(run(&sheet, &plan, Some(&view(40)), 1_000_000), "no 44");
    assert_eq!(run(&sheet, &plan, Some(&view(41)), 1_000_000), "no 40");
}

#[test]
fn the_program_example() {
    let input = unhex("47 00 00 03 00 09 01 01 00 15 01 02 10 00 13 00 03 04 00 07").unwrap();
    assert_eq!(printed(&input, Job::run), "ok 3 0304000702");
}

#[test]
fn jobs_of_a_file() {
    check_jobs(|input| printed(input, Job::run));
}
