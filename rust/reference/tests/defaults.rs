//! Defaults of a list case that take after the list sent, request 5 of document 02.

mod jobs;

use jobs::{get, list, ok, put, run};

/// The first seat of the row that variable 0 is, in a list, or [ ]. The defaults are two of these nodes: 6 is [1], 7 is 1, 8 is [ ], 9
/// is variable 0, 10 is variable 1.
fn row(first: u8, rest: u8) -> String {
    let shown = "10 00 13 15 04 05 10 01 13";
    format!("01 01 00 17 01 02 01 03 05 {first:02X} {rest:02X} {shown} 15 07 08 14 00 01 13 10 00 10 01")
}

/// The value of variable 1, with variable 0 a list that a put makes of the defaults: the branch for a list with members takes anything.
/// The defaults are given as two records, `more` stands behind them.
fn made(first: &str, rest: &str, more: &str) -> String {
    format!("01 02 00 20 06 17 01 02 01 03 00 04 05 10 00 13 10 01 {first} {rest} {more}")
}

#[test]
fn both_see_the_view() {
    assert_eq!(put(&row(7, 8), "02", &list(&[20])), ok(8, &list(&[20])));
    assert_eq!(put(&row(7, 9), "02", &list(&[20])), ok(8, &list(&[20, 20])));
    assert_eq!(put(&row(9, 9), "02", &list(&[20])), ok(8, &list(&[20, 20])));
    assert_eq!(put(&row(9, 6), "02", &list(&[20])), ok(10, &list(&[20, 1])));
    assert_eq!(put(&made("10 00", "13", "10 00"), "02 00", "04 00 05"), ok(6, "03 04 00 05 02 04 00 05"));
    assert_eq!(put(&made("10 00", "10 00", "10 00"), "02 00", &list(&[7])), ok(6, &format!("03 {0} {0} {0}", list(&[7]))));
}

#[test]
fn on_a_switch_alone() {
    for (first, rest) in [(9, 9), (10, 10), (9, 7)] {
        assert_eq!(get(&row(first, rest), &list(&[1, 2])), ok(5, &list(&[1])));
        assert_eq!(put(&row(first, rest), &list(&[1, 2]), &list(&[20])), ok(6, &list(&[20, 2])));
        assert_eq!(put(&row(first, rest), &list(&[1, 2]), "02"), ok(4, "02"));
        assert_eq!(put(&row(first, rest), "02", "02"), ok(4, "02"));
        assert_eq!(put(&row(first, rest), "02", &list(&[1, 2])), "no 53");
    }
}

#[test]
fn one_variable_alone() {
    for number in ["01", "02", "03", "FF"] {
        let variable = format!("10 {number}");
        assert_eq!(put(&made(&variable, "13", "10 00"), "02 00", "01"), "no 42", "{number}");
        // Nor does the rest see the first default.
        assert_eq!(put(&made("11", &variable, "10 00"), "02 00", "01"), "no 42", "{number}");
    }
    // First before rest, and the rest is judged before the view goes to the branch, which would refuse it.
    assert_eq!(put(&made("10 01", "11", "10 00"), "02 00", "01"), "no 42");
    assert_eq!(put(&row(7, 7), "02", &list(&[20])), "no 43");
    for view in ["01", "04 00 07", "06 00 01 00 00", "05 02 02", "03 00 02"] {
        let sheet = |rest: &str| made("11", rest, "10 00").replace("13 10 01", "13 14 00 63");
        assert_eq!(put(&sheet("10 00"), "02 00", view), if view == "03 00 02" { "no 50" } else { "no 43" }, "{view}");
        assert_eq!(put(&sheet("12"), "02 00", view), "no 43", "{view}");
        assert_eq!(put(&sheet("13"), "02 00", view), "no 50", "{view}");
    }
}

#[test]
fn the_part_that_was_put_into_the_case() {
    // A pair of variable 0 and the row of variable 1, whose rest is what was sent.
    let sheet = "01 02 00 16 01 02 10 00 17 03 04 01 05 05 09 08 10 01 13 15 06 07 10 02 13 10 00 14 00 01";
    let wanted = "04 00 63".to_string() + &list(&[20, 20]);
    assert_eq!(put(sheet, "04 00 07 02", &format!("05 04 00 63 {}", list(&[20]))), ok(10, &wanted));
    // 100 more than the case: it is handed 10 where 110 was sent.
    let sheet = "01 02 00 1B 01 00 64 17 02 03 01 04 00 05 06 10 00 13 10 01 10 00 13";
    assert_eq!(put(sheet, "02 00", "04 00 6E"), ok(7, "03 04 00 0A 02 04 00 0A"));
    // A front, whose rest is the case.
    let sheet = "01 02 00 15 01 02 10 01 17 03 04 01 05 05 09 08 10 00 13 15 06 07 10 02 13 10 00 14 00 01";
    assert_eq!(put(sheet, "02 00", &list(&[1, 2])), ok(10, &(list(&[2, 2]) + "04 00 01")));
    // The subject of another case: it is handed the rebuilt list, which is 99 in front of what was sent.
    let sheet = "01 02 00 17 01 02 01 03 02 04 05 17 06 02 01 07 02 08 09 13 10 01 14 00 63 10 00 10 00 10 02 11 10 00";
    let wanted = format!("03 {0} {0} {1}", list(&[99, 5]), list(&[5]));
    assert_eq!(put(sheet, "02 00", &list(&[5])), ok(13, &wanted));
    assert_eq!(get(sheet, &wanted), ok(5, &list(&[5])));
}

#[test]
fn cases_within_cases_and_sections() {
    // Every seat of the row of variable 0, by a section that calls itself on the rest.
    let seats = |rest: &str| {
        format!("01 01 00 20 01 1A 00 00 00 17 02 03 01 04 02 07 08 10 00 13 15 05 06 10 02 1A 00 03 03 14 00 00 {rest}")
    };
    assert_eq!(put(&seats("13"), "02", &list(&[1, 2])), ok(21, &list(&[1, 2])));
    // With what was sent as the rest, [1, 2], there is no switch for the second seat, and one to [ ] behind it.
    assert_eq!(put(&seats("10 00"), "02", &list(&[1, 2])), ok(19, &list(&[1, 2])));
    assert_eq!(put(&seats("10 00"), &list(&[1]), &list(&[1, 2, 3])), ok(25, &list(&[1, 2, 3])));
    assert_eq!(put(&seats("10 01"), "02", &list(&[1, 2])), "no 42");
    // The members of a list, each a row of its own: the view is the member.
    let each = "01 01 00 20 03 1C 01 00 00 02 10 00 13 17 04 05 01 06 05 09 0A 10 00 13 15 07 08 10 02 13 14 00 00 10 00";
    let lists = |lists: &[&[u32]]| lists.iter().map(|l| format!("03 {} ", list(l))).collect::<String>() + "02";
    assert_eq!(put(each, &lists(&[&[1, 5], &[]]), &lists(&[&[2], &[3], &[4]])), ok(26, &lists(&[&[2, 5], &[3, 3], &[4, 4]])));
}

#[test]
fn calls_and_eaches_in_a_default() {
    // Section 0 is node 6: the pair of its two variables.
    let pair = "16 07 08 10 00 10 01 10 00";
    assert_eq!(put(&made("1A 00 00 00", "13", pair), "02 00", "01"), ok(9, "03 05 01 01 02 01"));
    for call in ["1A 00 00 01", "1A 00 01 00"] {
        assert_eq!(put(&made(call, "13", pair), "02 00", "01"), "no 42", "{call}");
    }
    // Each member of what was sent beside all of it; node 9 is variable 0.
    let each = |variable: &str| made("11", &format!("1C 09 00 {variable} 08"), pair);
    let wanted = format!("03 00 03 05 04 00 01 {0} 03 05 04 00 02 {0} 02 {0}", list(&[1, 2]));
    assert_eq!(put(&each("00"), "02 00", &list(&[1, 2])), ok(13, &wanted));
    assert_eq!(put(&each("01"), "02 00", &list(&[1, 2])), "no 42");
    assert_eq!(put(&each("01"), "02 00", "01"), "no 43");
    // What a split in a default adds is variables 1 and 2.
    assert_eq!(put(&made("19 06 07", "13", "10 00 10 02"), "02 00", "05 00 01"), ok(8, "03 01 02 05 00 01"));
    assert_eq!(put(&made("19 06 07", "13", "10 00 10 03"), "02 00", "05 00 01"), "no 42");
    assert_eq!(put(&made("19 06 07", "13", "10 00 10 02"), "02 00", "01"), "no 43");
}

#[test]
fn the_default_of_each_sees_nothing() {
    let each = |default: &str| format!("01 01 00 20 02 1C 01 00 00 03 10 00 10 00 {default}");
    assert_eq!(put(&each("13"), "02", &list(&[5])), ok(5, &list(&[5])));
    assert_eq!(put(&each("10 00"), "02", &list(&[5])), "no 42");
    assert_eq!(put(&each("1A 00 00 00"), "02", &list(&[5])), "no 42");
    // What a split in it adds is variables 0 and 1.
    assert_eq!(put(&each("19 04 05 16 06 06 10 00 11"), "02", &list(&[5])), ok(9, &list(&[5])));
    assert_eq!(put(&each("19 04 05 16 06 06 10 02 11"), "02", &list(&[5])), "no 42");
    assert_eq!(put(&each("10 00"), &list(&[1]), &list(&[5])), ok(4, &list(&[5])));
    // Also in a branch that was switched to: a list case of variable 0, with the list of variable 1 as what the branch shows.
    let within =
        |default: &str| format!("01 02 00 20 04 17 01 02 01 03 02 06 07 10 00 13 1C 05 00 00 08 10 00 10 01 10 00 13 {default}");
    assert_eq!(put(&within("13"), "02 02", &list(&[5])), ok(10, &format!("03 {0} 02 {0}", list(&[5]))));
    assert_eq!(put(&within("10 00"), "02 02", &list(&[5])), "no 42");
}

#[test]
fn lengths() {
    let value = |length: usize| "05 00 ".repeat((length - 1) / 2) + "00";
    let sheet = made("10 00", "13", "10 00");
    assert_eq!(put(&sheet, "02 00", &value(253)), ok(6, &format!("03 {0} 02 {0}", value(253))));
    assert_eq!(put(&sheet, "02 00", &value(255)), "no 44");
    let twice = made("16 06 06", "13", "10 00");
    assert_eq!(put(&twice, "02 00", &value(125)), ok(8, &format!("03 05 {0} {0} 02 {0}", value(125))));
    assert_eq!(put(&twice, "02 00", &value(127)), "no 44");
    // The pair of 255 bytes fits, the list that it is the first member of does not.
    assert_eq!(run(&twice, "02 00", Some(&value(127)), 7), "no 44");
    assert_eq!(run(&twice, "02 00", Some(&value(127)), 6), "no 41");
    // The pair does not fit: that is met before the rest is got.
    assert_eq!(run(&twice, "02 00", Some(&value(129)), 5), "no 44");
    assert_eq!(run(&twice, "02 00", Some(&value(129)), 4), "no 41");
}

#[test]
fn steps_and_depth() {
    let sheet = made("10 00", "10 00", "10 00");
    for allowance in 1..6 {
        assert_eq!(run(&sheet, "02 00", Some("03 00 02"), allowance), "no 41");
    }
    assert_eq!(run(&sheet, "02 00", Some("03 00 02"), 6), ok(6, "03 03 00 02 03 00 02 03 00 02"));
    // The case behind n sums: its defaults are at depth n + 2, and what the first is made of one deeper.
    let behind = |n: u8| {
        let sums: String = (1..=n).map(|next| format!("1B {next:02X} 00 00 ")).collect();
        let [a, b, c, d, e, f] = [1, 2, 3, 4, 5, 6].map(|node| n + node);
        let case = format!("17 {a:02X} {b:02X} 01 {c:02X} 00 {d:02X} {e:02X}");
        format!("01 02 00 {sums} {case} 10 00 13 10 01 1B {f:02X} 00 00 13 10 00")
    };
    assert_eq!(put(&behind(45), "02 00", "04 00 07"), ok(52, "03 04 00 07 02 04 00 07"));
    assert_eq!(put(&behind(46), "02 00", "04 00 07"), "no 40");
}

#[test]
fn what_was_sent_comes_back() {
    for (first, rest) in [(7, 8), (7, 9), (9, 9), (9, 6)] {
        let sheet = row(first, rest);
        for plan in ["02".to_string(), list(&[1]), list(&[1, 2])] {
            for view in ["02".to_string(), list(&[20])] {
                let new = put(&sheet, &plan, &view);
                let new = new.rsplit(' ').next().unwrap();
                assert_eq!(get(&sheet, new).rsplit(' ').next(), Some(&view.replace(' ', "")[..]));
            }
        }
    }
}
