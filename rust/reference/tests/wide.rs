//! Numbers over 65,535, request 4 of document 02: the kind of value 06 and the node 1D.

mod jobs;

use jobs::{get, list, ok, put, run};

/// Variable 0.
const P: &str = "01 01 00 10 00";
/// 100 more than variable 0.
const H: &str = "01 01 00 1B 01 00 64 10 00";
/// The pair of variable 0 and variable 0.
const T: &str = "01 01 00 16 01 02 10 00 10 00";

const LEAST: &str = "06 00 01 00 00";
const MOST: &str = "06 FF FF FF FF";

/// The answer for bytes as a plan, which is that for the same bytes as a list with 30 to 32 for 20 to 22.
fn read(bytes: &str) -> String {
    let (plan, view) = (get(P, bytes), put(P, "00", bytes));
    let as_a_plan = ["20", "21", "22"].iter().fold(view, |view, number| {
        let of_the_view = format!("no 3{}", &number[1..]);
        view.replace(&of_the_view, &format!("no {number}"))
    });
    assert_eq!(plan, as_a_plan, "{bytes}");
    plan
}

#[test]
fn only_above_65_535() {
    for number in [LEAST, MOST, "06 00 01 86 9F", "06 01 00 00 00", "06 80 00 00 00"] {
        assert_eq!(read(number), ok(1, number));
    }
    for number in ["00 00 FF FF", "00 00 00 00", "00 00 01 00", "00 00 80 00"] {
        assert_eq!(read(&format!("06 {number}")), "no 20", "{number}");
    }
    for cut in ["06", "06 00", "06 00 01", "06 00 01 00", "03 06 00 01 00 00"] {
        assert_eq!(read(cut), "no 20", "{cut}");
    }
    assert_eq!(read("07"), "no 20");
    assert_eq!(read(&format!("{LEAST} 00")), "no 22");
    assert_eq!(read("06 00 00 FF FF 00"), "no 20");
    assert_eq!(read(&list(&[65_536, 65_535])), ok(1, &list(&[65_536, 65_535])));
    // The rest of a list is a list.
    assert_eq!(read(&format!("03 00 {LEAST}")), "no 20");
}

#[test]
fn judged_at_the_last_byte() {
    // Pairs in front, so that the number ends at byte `end`.
    let value = |end: usize, number: &str| "05 00 ".repeat((end - 5) / 2) + number;
    assert_eq!(read(&value(255, LEAST)), ok(1, &value(255, LEAST)));
    assert_eq!(read(&value(255, "06 00 00 FF FF")), "no 20");
    // The 257th byte is met before it is known that the number is small.
    assert_eq!(read(&value(257, LEAST)), "no 21");
    assert_eq!(read(&value(257, "06 00 00 FF FF")), "no 21");
    assert_eq!(read(&value(259, "06 00 00 FF FF")), "no 21");
    assert_eq!(read(&value(261, "06 00 00 FF FF")), "no 21");
    // So is the end of the input.
    for end in [255, 257, 259] {
        for left in 1..5 {
            let bytes = value(end, "");
            let body = "00".repeat(left - 1);
            let count = end - 5 + left;
            assert_eq!(read(&format!("{bytes} 06 {body}")), if count > 256 { "no 21" } else { "no 20" }, "{count} bytes");
        }
    }
}

#[test]
fn one_number_has_one_encoding() {
    assert_eq!(get(T, LEAST), ok(3, &format!("05 {LEAST} {LEAST}")));
    assert_eq!(put(T, "00", &format!("05 {MOST} {MOST}")), ok(3, MOST));
    assert_eq!(put(T, "00", &format!("05 {MOST} 06 FF FF FF FE")), "no 54");
    assert_eq!(put(T, "00", &format!("05 {LEAST} 04 00 00")), "no 54");
    assert_eq!(put(T, LEAST, "05 04 FF FF 04 FF FF"), ok(3, "04 FF FF"));
}

#[test]
fn constants() {
    let sheet = |number: &str| format!("01 01 00 1D {number}");
    for number in ["00 01 00 00", "00 01 86 9F", "FF FF FF FF"] {
        let value = format!("06 {number}");
        assert_eq!(get(&sheet(number), "00"), ok(1, &value));
        assert_eq!(put(&sheet(number), "00", &value), ok(1, "00"));
        assert_eq!(put(&sheet(number), "00", "06 00 01 00 01"), "no 50");
        assert_eq!(put(&sheet(number), "00", "04 00 00"), "no 50");
        assert_eq!(put(&sheet(number), "00", "02"), "no 50");
    }
    assert_eq!(put("01 01 00 14 00 00", "00", LEAST), "no 50");
    for number in ["00 00 FF FF", "00 00 00 00", "00 00 01 00"] {
        assert_eq!(get(&sheet(number), "00"), "no 13", "{number}");
        // Also where no walk comes to it.
        assert_eq!(get(&format!("{P} 1D {number}"), "00"), "no 13", "{number}");
    }
}

#[test]
fn records_of_constants() {
    for cut in ["1D", "1D 00", "1D 00 00", "1D 00 00 FF"] {
        assert_eq!(get(&format!("{P} {cut}"), "00"), "no 11", "{cut}");
    }
    assert_eq!(get(&format!("{P} 1E 00 01 00 00"), "00"), "no 10");
    assert_eq!(get("1D 00 01 00 00", "00"), "no 10");
    // The numbers are judged behind all records, and before the plan.
    assert_eq!(get(&format!("{P} 1D 00 00 FF FF 0F"), "00"), "no 10");
    assert_eq!(get(&format!("{P} 1D 00 00 FF FF 20 00"), "00"), "no 10");
    assert_eq!(get(&format!("{P} 1D 00 00 FF FF"), ""), "no 13");
    let full = format!("01 01 00 {}", "1D 00 01 00 00 ".repeat(200));
    assert_eq!(get(&full, "00"), ok(1, LEAST));
    assert_eq!(get(&format!("{full} 1D"), "00"), "no 12");
}

#[test]
fn no_sum() {
    assert_eq!(get(H, LEAST), "no 43");
    assert_eq!(put(H, "04 00 07", LEAST), "no 51");
    assert_eq!(put(H, LEAST, "04 00 64"), ok(2, "04 00 00"));
    assert_eq!(get(H, "04 FF 9B"), ok(2, "04 FF FF"));
    assert_eq!(get(H, "04 FF 9C"), "no 45");
    // Nor is 0 added.
    assert_eq!(get("01 01 00 1B 01 00 00 10 00", LEAST), "no 43");
    assert_eq!(put("01 01 00 1B 01 00 00 10 00", "00", LEAST), "no 51");
    assert_eq!(get("01 01 00 1B 01 00 01 1D 00 01 00 00", "00"), "no 43");
}

#[test]
fn another_kind() {
    for test in 0..7 {
        // Given by the branch for False, and put into it.
        let sheet = format!("01 01 00 18 01 02 {test:02X} 03 {test:02X} 10 00 1D 00 01 00 00 10 00");
        let yes = test == 0;
        assert_eq!(get(&sheet, "00"), if yes { ok(3, LEAST) } else { "no 46".into() }, "test {test}");
        assert_eq!(put(&sheet, "00", LEAST), if yes { ok(4, "00") } else { "no 53".into() }, "test {test}");
    }
    // A list case, a truth case, a split, an each and a rest of variable 0.
    let cases = [
        "17 01 02 00 02 00 02 02 10 00 13",
        "18 01 02 00 02 00 10 00 13",
        "19 01 02 10 00 13",
        "15 02 01 10 00 13",
        "20 01 1C 01 00 00 01 10 00",
    ];
    for case in cases {
        let sheet = format!("01 01 00 {case}");
        assert_eq!(get(&sheet, LEAST), "no 43", "{case}");
        let wanted = if case.starts_with("15") || case.starts_with("20") { "no 51" } else { "no 43" };
        assert_eq!(put(&sheet, LEAST, LEAST), wanted, "{case}");
    }
    assert_eq!(put("01 01 00 16 01 01 10 00", "00", LEAST), "no 51");
    // One member, and two, behind a number of four bytes.
    for (test, numbers) in [("05", &[65_536][..]), ("06", &[65_536, 65_536])] {
        let sheet = format!("01 01 00 18 01 02 {test} 02 {test} 12 10 00");
        assert_eq!(get(&sheet, &list(numbers)), ok(3, &list(numbers)));
        let other = if test == "05" { list(&[65_536, 1]) } else { list(&[65_536]) };
        assert_eq!(get(&sheet, &other), "no 46");
    }
}

/// Each price of variable 0 beside the fixed price 100,000; the default is 70,000.
const PRICES: &str = "01 01 00 20 03 1C 01 00 00 02 10 00 1D 00 01 11 70 16 04 05 10 00 1D 00 01 86 A0";

#[test]
fn a_plan_of_prices() {
    let beside = |prices: &[u32]| prices.iter().map(|n| format!("03 05 06 {n:08X} 06 000186A0 ")).collect::<String>() + "02";
    let old = list(&[65_536, 4_294_967_295]);
    assert_eq!(get(PRICES, &old), ok(8, &beside(&[65_536, 4_294_967_295])));
    assert_eq!(put(PRICES, &old, &beside(&[65_536, 4_294_967_295])), ok(9, &old));
    assert_eq!(put(PRICES, &old, &beside(&[80_000, 90_000, 99_999])), ok(13, &list(&[80_000, 90_000, 99_999])));
    assert_eq!(put(PRICES, &old, &beside(&[80_000]).replace("000186A0", "000186A1")), "no 50");
    // 21 pairs of 11 bytes are a list of 253 bytes, 42 numbers too.
    let many = |count: u32| (0..count).map(|n| 65_536 + n).collect::<Vec<u32>>();
    assert_eq!(get(PRICES, &list(&many(21))), ok(65, &beside(&many(21))));
    assert_eq!(get(PRICES, &list(&many(22))), "no 44");
    assert_eq!(run(PRICES, &list(&many(42)), None, 68), "no 44");
    assert_eq!(run(PRICES, &list(&many(42)), None, 67), "no 41");
    assert_eq!(get(P, &list(&many(43))), "no 21");
}
