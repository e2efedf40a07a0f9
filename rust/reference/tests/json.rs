//! Lists as JSON, request 11 of document 02.

use reference::tool::{printed, Tool};
use reference::vectors::unhex;

/// What the program prints for a value to be written.
fn write(value: &str) -> String {
    printed(&unhex(&format!("44 {value}")).unwrap(), Tool::run)
}

/// What the program prints for a text to be read.
fn read(text: &str) -> String {
    printed(&[b"\x45", text.as_bytes()].concat(), Tool::run)
}

/// A value, and its text without white space.
const PAIRS: [(&str, &str); 11] = [
    ("00", "false"),
    ("01", "true"),
    ("040000", "0"),
    ("04FFFF", "65535"),
    ("0600010000", "65536"),
    ("06FFFFFFFF", "4294967295"),
    ("02", "[]"),
    ("0302030002", "[[],false]"),
    ("0304000102", "[1]"),
    ("050001", r#"{"a":false,"b":true}"#),
    ("0503040007020506000186A002", r#"{"a":[7],"b":{"a":100000,"b":[]}}"#),
];

#[test]
fn both_ways() {
    for (value, text) in PAIRS {
        assert_eq!(write(value), format!("ok {text}"));
        assert_eq!(read(text), format!("ok {value}"));
        let spaced: String = text.replace(['[', ']', '{', '}', ':', ','], " \t$\n\r");
        let mut signs = text.chars().filter(|c| "[]{}:,".contains(*c));
        let spaced: String = spaced.chars().map(|c| if c == '$' { signs.next().unwrap() } else { c }).collect();
        assert_eq!(read(&format!("\r\n{spaced} ")), format!("ok {value}"), "{spaced}");
    }
}

#[test]
fn no_such_text() {
    for text in [
        "",
        " ",
        "[",
        "[1",
        "[1,",
        "[1,]",
        "[,1]",
        "[1 2]",
        "1,",
        "1 1",
        "]",
        "tru",
        "truefalse",
        "True",
        "null",
        "\"a\"",
        "-1",
        "+1",
        "1.0",
        "1e3",
        "00",
        "01",
        "4294967296",
        "42949672950",
        "[01]",
        "{}",
        r#"{"a":1}"#,
        r#"{"b":1,"a":2}"#,
        r#"{"a":1,"b":2,}"#,
        r#"{"a":1,"b":2,"c":3}"#,
        r#"{"a":1,"a":2}"#,
        r#"{"\u0061":1,"b":2}"#,
        r#"{a:1,b:2}"#,
        r#"{"a" 1,"b":2}"#,
        r#"{"a":1 "b":2}"#,
        r#"{" a":1,"b":2}"#,
        "\u{FEFF}1",
        "1\0",
        "\u{B}1",
        "1\u{C}",
        "1\u{A0}",
    ] {
        assert_eq!(read(text), "no 70", "{text:?}");
    }
}

#[test]
fn nested() {
    let arrays = |depth: usize| "[".repeat(depth) + &"]".repeat(depth);
    assert_eq!(read(&arrays(48)), format!("ok {}02", "03".repeat(47) + &"02".repeat(47)));
    assert_eq!(read(&arrays(49)), "no 71");
    // The first byte that shows a fault decides.
    assert_eq!(read(&"[".repeat(49)), "no 71");
    assert_eq!(read(&"[".repeat(48)), "no 70");
    assert_eq!(read(&format!("[}}{}", arrays(49))), "no 70");
    assert_eq!(read(&format!("{}{{]", "[".repeat(48))), "no 71");
    assert_eq!(write(&("03".repeat(47) + "02" + &"02".repeat(47))), format!("ok {}", arrays(48)));
    assert_eq!(write(&("03".repeat(48) + "02" + &"02".repeat(48))), "no 71");
    assert_eq!(write(&("0500".repeat(48) + "00")), format!("ok {}false{}", r#"{"a":false,"b":"#.repeat(48), "}".repeat(48)));
    assert_eq!(write(&("0500".repeat(49) + "00")), "no 71");
}

#[test]
fn long() {
    let list = |members: usize| format!("[{}]", vec!["false"; members].join(","));
    assert_eq!(read(&list(127)), format!("ok {}02", "0300".repeat(127)));
    assert_eq!(read(&list(128)), "no 72");
    // Judged once the text is read.
    assert_eq!(read(&format!("{}]", list(128))), "no 70");
    assert_eq!(read(&format!("[{},{}", list(128), "[".repeat(48))), "no 71");
    assert_eq!(reference::from_json(list(30_000).as_bytes(), &mut [0; 256]), 72);
}

#[test]
fn no_such_value() {
    assert_eq!(write(""), "no 32");
    assert_eq!(write("0000"), "no 32");
    assert_eq!(write("07"), "no 30");
    assert_eq!(write("060000FFFF"), "no 30");
    assert_eq!(write(&"0500".repeat(200)), "no 31");
    // The value is judged before its depth, and the output before both.
    assert_eq!(write(&"0500".repeat(60)), "no 30");
    assert_eq!(reference::to_json(&[], &mut [0; 2047]), 1);
    assert_eq!(reference::to_json(&[], &mut [0; 2048]), 32);
    assert_eq!(reference::from_json(b"", &mut [0; 255]), 1);
    assert_eq!(reference::from_json(b"", &mut [0; 256]), 70);
}
