//! Sheets as text: what a person is told about a text that is no sheet.

use lens::{Refusal, Sheet};

/// What is told of a text, without the line and the mark below it, which must be where the column says.
fn told(text: impl AsRef<[u8]>) -> String {
    let refused = Sheet::parse(text.as_ref()).unwrap_err();
    let told = refused.to_string();
    let lines: Vec<&str> = told.lines().collect();
    assert_eq!(lines.len(), 3, "{told}");
    assert!(lines[0].starts_with(&format!("line {}, column {}: {}", refused.line, refused.column, refused.sentence())), "{told}");
    assert!(lines[0].ends_with(&format!(" [{}]", refused.number())), "{told}");
    assert_eq!(lines[2], format!("  {}^", " ".repeat(refused.column - 1)));
    lines[0].to_string()
}

/// A fault in the line of the list, behind `list = `.
fn in_list(expression: &str) -> String {
    told(format!("plan a\nlist = {expression}"))
}

#[test]
fn places() {
    assert_eq!(told(""), "line 1, column 1: expected the word `plan`, which begins a sheet, found the end of the text [90]");
    assert_eq!(told("\n\n  list"), "line 3, column 3: expected the word `plan`, which begins a sheet, found `list` [90]");
    assert_eq!(
        told("plan a\r\n"),
        "line 2, column 1: expected `,` and another name, or the word `list`, found the end of the text [90]"
    );
    let refused = Sheet::parse("plan a -- \u{e9}\n\tlist\t= b\r\n").unwrap_err();
    assert_eq!((refused.refusal, refused.place, refused.detail), (Refusal::TEXT_NAME, 21, 40));
    assert_eq!((refused.line, refused.column), (2, 9));
    assert_eq!(refused.to_string(), "line 2, column 9: there is no variable of this name here [91]\n   list = b\n          ^");
    // Each byte is a column, and is shown as one sign.
    let refused = Sheet::parse(b"plan \xC3\xA9").unwrap_err();
    assert_eq!(
        refused.to_string(),
        "line 1, column 6: expected a name (or `_` for a value that is not used), found the byte C3 [90]\n  plan \u{c3}\u{a9}\n       ^"
    );
}

#[test]
fn what_is_found() {
    let expected = "line 2, column 8: expected an expression";
    assert_eq!(in_list(""), format!("{expected}, found the end of the text [90]"));
    assert_eq!(
        in_list("-> a"),
        format!("{expected}, found `->` (nothing is subtracted in a sheet; an amount is added in front: 100 + seat) [90]")
    );
    assert_eq!(in_list("* a"), format!("{expected}, found `*` [90]"));
    assert_eq!(in_list("end1 section"), "line 2, column 8: there is no variable of this name here [91]");
    assert_eq!(in_list("default"), format!("{expected}, found `default` [90]"));
    assert_eq!(in_list("\0"), format!("{expected}, found the byte 00 [90]"));
    assert_eq!(in_list("a 120"), "line 2, column 10: expected the word `section`, or the end of the text, found `120` [90]");
}

/// The words in brackets behind the sentence of a fault.
fn hint(text: &str) -> String {
    let sentence = Sheet::parse(text).unwrap_err().sentence();
    let told = told(text);
    let (_, behind) = told.split_once(sentence).unwrap();
    behind.split_once(" (").map_or_else(String::new, |(_, hint)| hint.rsplit_once(") [").unwrap().0.to_string())
}

#[test]
fn hints() {
    let list = |expression: &str| hint(&format!("plan a list = {expression}"));
    assert_eq!(list("a + 100"), "the amount stands in front: write 100 + seat for seat + 100");
    assert_eq!(list("a : []"), "a member in front of a list is written [first | rest]");
    assert_eq!(hint("plan a : b"), "");
    for quote in ["\"AB\"", "'AB'"] {
        assert_eq!(list(quote), "there is no text in a sheet: write a name as a list of numbers, \"AB\" as [65, 66]");
    }
    assert_eq!(list("-1"), "nothing is subtracted in a sheet; an amount is added in front: 100 + seat");
    assert_eq!(list("case a of [] - 1"), "");
    assert_eq!(list("f((a, a), a)"), "a section is called with variables: take a pair apart with let, a list with case");
    assert_eq!(list("(a)"), "brackets make pairs: (a, b); an expression needs none around it");
    for end in ["", "\n", " a\n \t\r\n", " --\n"] {
        let arrow = if end == " --\n" { "" } else { "`-->` begins a comment: write `->`" };
        assert_eq!(list(&format!("case a of [] -->{end}")), arrow, "{end:?}");
    }
    assert_eq!(list("case a of if"), "write case .. of false -> .. true -> .. end");
    assert_eq!(list("if a"), "write case .. of false -> .. true -> .. end");
    assert_eq!(list("case a of true"), "the branch for false stands first");
    assert_eq!(hint("plan list"), "`list` is a word of the language and no name");
    assert_eq!(list("each with(a, a)"), "`with` is a word of the language and no name");
    assert_eq!(list("case a of false -> 0 true -> 1 with any with any"), "a branch has one test");
    assert_eq!(list("TRUE"), "words of the language have small letters: `true`");
    for number in ["0064", "0x64", "12e"] {
        assert_eq!(list(number), "numbers are decimal: 100, and not 0064 or 0x64");
    }
    assert_eq!(list("4294967296"), "");
}

#[test]
fn a_sheet_as_a_string() {
    let bytes =
        Sheet::parse("plan row, fee list = (each f(row, fee) default 0, 70000) section f(seat, fee) = (fee, seat)").unwrap();
    let sheet = Sheet::new(&bytes);
    let text = "plan a, b\nlist = (each part0(a, b) default 0, 70000)\n\nsection part0(a, b) = (b, a)\n";
    assert_eq!((sheet.text().as_deref(), sheet.to_string().as_str()), (Ok(text), text));
    assert_eq!(Sheet::parse(text), Ok(bytes.clone()));
    let cut = Sheet::new(&bytes[..bytes.len() - 1]);
    assert_eq!(cut.text().unwrap_err().refusal, Refusal::SHEET_CUT);
    assert!(cut.to_string().starts_with("01020020"));
}
