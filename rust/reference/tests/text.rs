//! Sheets as text: a text read to its sheet, and a sheet printed as text.

use reference::tool::{printed, Tool};
use reference::vectors::{hex, unhex};
use reference::{print_sheet, read_sheet, SHEET_OUT, TEXT_OUT};

/// What the program prints for a text.
fn read(text: &str) -> String {
    printed(&[b"\x41", text.as_bytes()].concat(), Tool::run)
}

/// The text of a sheet, or what the program prints where it is refused.
fn text(sheet: &str) -> String {
    let printed = printed(&unhex(&format!("55 {sheet}")).unwrap(), Tool::run);
    match printed.strip_prefix("ok ") {
        Some(text) => String::from_utf8(unhex(text).unwrap()).unwrap(),
        None => printed,
    }
}

/// A text, and the bytes of its sheet.
const PRICES: (&str, &str) = (
    "plan prices, fee
list =
  case fee of
    false -> prices
    true  -> charged(prices, fee)
  end

section charged(prices, fee) =
  case prices of
    []              -> [] with empty
    [ticket | rest] -> [ let (name, price) = ticket in (name, 250 + price) | charged(rest, fee) ] with members
      default ticket = ([], 0), rest = []
  end
",
    "010200 2004 180102000300 1001 1000 1A000001 1705060107020F12 1000 13 15080E 19090A 1002 160B0C 1004 1B0D00FA 1005 1A000301 \
     161011 13 140000 13",
);

/// The same sheet as it is printed.
const PRINTED: &str = "plan a, b
list =
  case b of
    false -> a
    true  -> part0(a, b)
  end

section part0(a, b) =
  case a of
    []      -> [] with empty
    [c | d] -> [let (e, f) = c in (e, 250 + f) | part0(d, b)] with members
      default c = ([], 0), d = []
  end
";

#[test]
fn both_ways() {
    let bytes = format!("ok {}", hex(&unhex(PRICES.1).unwrap()));
    assert_eq!(read(PRICES.0), bytes);
    assert_eq!(text(PRICES.1), PRINTED);
    assert_eq!(read(PRINTED), bytes);
    // White space and comments between tokens change nothing.
    assert_eq!(read(&PRICES.0.replace(' ', "\t--\0\u{e9}\r\n")), bytes);
}

#[test]
fn lists_and_numbers() {
    for (expression, nodes) in [
        ("[]", "13"),
        ("[1, 2]", "150102 140001 150304 140002 13"),
        ("[a, a | a]", "150102 1000 150304 1000 1000"),
        ("65535", "14FFFF"),
        ("65536", "1D00010000"),
        ("4294967295", "1DFFFFFFFF"),
        ("65535 + #255", "1B01FFFF 10FF"),
        ("(#0, 0)", "160102 1000 140000"),
    ] {
        let sheet = format!("010100 {nodes}");
        let printed = format!("plan a\nlist = {}\n", expression.replace("#0", "a"));
        assert_eq!(read(&format!("plan a list={expression}")), format!("ok {}", sheet.replace(' ', "")));
        assert_eq!(text(&sheet), printed);
    }
}

#[test]
fn faults() {
    for (text, fault) in [
        ("", "no 90 0 1"),
        ("plan case", "no 90 5 2"),
        ("plan a, a", "no 92 8 50"),
        ("plan _, _ list = _", "no 90 17 5"),
        ("plan a list = b", "no 91 14 40"),
        ("plan a list = # 0", "no 90 15 12"),
        ("plan a list = #256", "no 93 17 64"),
        ("plan a list = 00", "no 93 15 61"),
        ("plan a list = 12x", "no 93 16 62"),
        ("plan a list = 42949672950", "no 93 24 60"),
        ("plan a list = 65536 + a", "no 93 20 63"),
        ("plan a list = case a of [] -> a [b | a] -> b", "no 92 37 50"),
        ("plan a list = case a of [] -> a [b | c] -> b default b = a", "no 91 57 41"),
        ("plan a list = each f(a, a) default a", "no 91 35 42"),
        // The first that stands for nothing, once the text is read.
        ("plan a list = [f(a, a), each g(a, a) default 0] section f(a, _) = h(a, a)", "no 91 29 43"),
        ("plan a list = a section f(a, b) = a section f(b, a) = a", "no 92 44 51"),
    ] {
        assert_eq!(read(text), fault, "{text}");
    }
    let names = |count: usize| (0..count).map(|name| format!("v{name}")).collect::<Vec<_>>().join(", ");
    assert_eq!(read(&format!("plan {} list = v15", names(16))), "ok 011000100F");
    assert_eq!(read(&format!("plan {}", names(17))), format!("no 94 {} 70", 5 + names(17).len() - 3));
    let section = |number: usize| format!(" section f{number}(_, _) = 0");
    let sections = |count: usize| (0..count).map(section).collect::<String>();
    assert!(read(&format!("plan a list = a{}", sections(8))).starts_with("ok "));
    assert_eq!(read(&format!("plan a list = a{}", sections(9))), format!("no 94 {} 71", 16 + sections(8).len()));
    // A list of 99 members has 199 nodes, with a sum in front of it 200. The node that is too many may be a `,`, a `]` or a token of its own.
    let list = |members: usize, end: &str| format!("plan a list = 1 + [{}a{end}", "a,".repeat(members - 1));
    assert!(read(&list(99, "]")).starts_with("ok "));
    assert_eq!(read(&list(99, ",x")), format!("no 94 {} 72", list(99, "").len() + 1));
    assert_eq!(read(&format!("plan a list = 1 + 2 + [{}]", "a,".repeat(98) + "a")), "no 94 220 72");
}

#[test]
fn twice_and_damaged() {
    assert_eq!(text("01 01 00 16 01 01 10 00"), "no 81 1");
    assert_eq!(text("01 01 00 16 01 02 11"), "no 13");
    assert_eq!(text(""), "no 14");
    // A node that is never met is not printed.
    assert_eq!(text("01 01 01 13 12"), "plan a\nlist = true\n");
}

#[test]
fn the_output() {
    let (mut out, mut place) = ([0xEE; SHEET_OUT + 1], 7);
    assert_eq!(read_sheet(b"", &mut out[..SHEET_OUT - 1], &mut place), 1);
    assert_eq!((place, out), (7, [0xEE; SHEET_OUT + 1]));
    assert_eq!(read_sheet(b" plan", &mut out, &mut place), 2 << 8 | 90);
    assert_eq!((place, out), (5, [0xEE; SHEET_OUT + 1]));
    assert_eq!(read_sheet(b"plan a list = a", &mut out, &mut place), 5 << 8);
    assert_eq!((place, &out[..6]), (5, &[0x01, 0x01, 0x00, 0x10, 0x00, 0xEE][..]));
    let sheet = [0x01, 0x01, 0x00, 0x11];
    assert_eq!(print_sheet(&sheet, &mut [0; TEXT_OUT - 1]), 1);
    assert_eq!(print_sheet(&sheet, &mut [0; TEXT_OUT]), 20 << 8);
}

/// Cases within cases: no line has more than 32 blanks in front.
#[test]
fn deep_cases() {
    let mut text = "a".to_string();
    for _ in 0..40 {
        text = format!("case a of false -> {text} true -> a end");
    }
    let sheet = read(&format!("plan a list = {text}"));
    let printed = self::text(sheet.strip_prefix("ok ").unwrap());
    let blanks = printed.lines().map(|line| line.len() - line.trim_start().len()).max();
    assert_eq!(blanks, Some(32));
    assert_eq!(read(&printed), sheet);
}
