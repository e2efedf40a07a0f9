//! Sheets as text: archive and reference print and read alike. What is printed reads back to the sheet in its one numbering; what is read
//! is a sheet in that numbering; white space and comments between tokens change nothing.

use crate::random::Random;
use crate::records::{redirect, shuffled};
use crate::sheets::{by_record, by_type};
use crate::texts::{bytes, spoil, text, Tokens};
use crate::tools::{check_cases, out_len, Both};
use crate::values::damage;
use lens::raw::{self, Answer, SHEET_OUT, TEXT_OUT};
use lens::Sheet;

/// What stands in the lent place before a call.
const BEFORE: usize = usize::MAX;

/// The answer, what it gives, and the place of a fault.
fn read(text: &[u8], out_len: usize, both: &mut Both) -> (Answer, Vec<u8>, usize) {
    let (mut ours, mut theirs) = (BEFORE, BEFORE);
    let (answer, sheet) =
        both.call(out_len, |out| raw::read_sheet(text, out, &mut ours), |out| reference::read_sheet(text, out, &mut theirs));
    assert!(ours == theirs, "the archive tells the place {ours}, the reference {theirs}, after {:016X}", answer.0);
    assert_eq!(ours <= text.len(), answer.detail().is_some());
    assert!(ours <= text.len() || ours == BEFORE);
    (answer, sheet, ours)
}

fn print(sheet: &[u8], out_len: usize, both: &mut Both) -> (Answer, Vec<u8>) {
    let (answer, text) = both.call(out_len, |out| raw::print_sheet(sheet, out), |out| reference::print_sheet(sheet, out));
    assert_eq!(answer.node().is_some(), answer.number() == 81);
    (answer, text)
}

/// What holds of a sheet that a text gave: it is in its one numbering, and its text reads back to it.
fn check_read(sheet: &[u8], both: &mut Both) {
    assert_eq!(Sheet::new(sheet).numbered(), Ok(sheet.to_vec()));
    let (answer, text) = print(sheet, TEXT_OUT, both);
    assert_eq!(answer.number(), 0);
    assert_eq!(read(&text, SHEET_OUT, both).1, sheet);
}

#[derive(Debug)]
struct Printed {
    sheet: Vec<u8>,
    out_len: usize,
}

fn to_be_printed(random: &mut Random) -> Printed {
    let mut sheet = if random.percent(25) { by_record(random) } else { by_type(random).bytes };
    match random.below(10) {
        0 => redirect(random, &mut sheet),
        1 => damage(&mut sheet, random),
        2..=5 => sheet = shuffled(random, &sheet),
        _ => {}
    }
    Printed { sheet, out_len: out_len(random, TEXT_OUT) }
}

#[test]
fn sheets_printed_as_text() {
    check_cases(&[0, 1, 10, 11, 12, 13, 14, 81], to_be_printed, |Printed { sheet, out_len }, both| {
        let (answer, text) = print(sheet, *out_len, both);
        if answer.number() > 0 {
            return;
        }
        let numbered = Sheet::new(sheet).numbered().unwrap();
        assert_eq!(read(&text, SHEET_OUT, both).1, numbered);
        assert_eq!(print(&numbered, TEXT_OUT, both).1, text);
        assert_eq!(Sheet::new(sheet).to_string().as_bytes(), text);
    });
}

#[derive(Debug)]
struct Read {
    text: Vec<u8>,
    /// The same tokens with other white space and comments between them.
    spaced: Vec<u8>,
    /// The same with a byte changed, added or left out.
    changed: Vec<Vec<u8>>,
    out_len: usize,
}

fn to_be_read(random: &mut Random) -> Read {
    let depth = random.pick(&[0, 1, 2, 3, 4, 5, 12]);
    let mut tokens = text(random, depth);
    while random.percent(40) {
        spoil(random, &mut tokens);
    }
    let (text, spaced) = (bytes(random, &tokens), bytes(random, &tokens));
    let changed = (0..4).map(|_| change(random, &text)).collect();
    Read { text, spaced, changed, out_len: out_len(random, SHEET_OUT) }
}

fn change(random: &mut Random, text: &[u8]) -> Vec<u8> {
    let (at, mut changed) = (random.below(text.len()), text.to_vec());
    match random.below(4) {
        0 => changed.truncate(at),
        1 => {
            changed.remove(at);
        }
        2 => changed.insert(at, random.byte()),
        _ => changed[at] = random.pick(b"()[]|,=+->#_ \n09azAZ"),
    }
    changed
}

#[test]
fn texts_read_to_sheets() {
    check_cases(&[0, 1, 90, 91, 92, 93, 94], to_be_read, |Read { text, spaced, changed, out_len }, both| {
        let (answer, sheet, _) = read(text, *out_len, both);
        if answer.number() != 1 {
            let (again, same, _) = read(spaced, SHEET_OUT, both);
            assert_eq!((again, same), (answer, sheet.clone()));
        }
        if answer.number() == 0 {
            check_read(&sheet, both);
        }
        for text in changed {
            let (answer, sheet, _) = read(text, SHEET_OUT, both);
            if answer.number() == 0 {
                check_read(&sheet, both);
            }
        }
    });
}

/// So many texts, with fewer bytes each, are changed in every place.
const TEXTS: usize = 100;
const SHORT: usize = 150;

/// Texts with each construct of the language in one of them, and random ones that are read.
fn short_texts(both: &mut Both) -> Vec<Vec<u8>> {
    let fixed = [
        "plan a, _ list = [a, #7 | 100 + a]",
        "plan a list = case a of [] -> 0 with one [b | _] -> b with any default b = sent, _ = [] end -- end",
        "plan a\nlist = case a of false -> (true, f(a, a)) with many true -> 70000 end\nsection f(a, b) = b",
        "plan a list = each f(a, a) default [1, 2] section f(a, _) = let (c, d) = a in (d, c)",
    ];
    let mut texts: Vec<Vec<u8>> = fixed.iter().map(|text| text.as_bytes().to_vec()).collect();
    let mut random = Random::new(35);
    while texts.len() < TEXTS {
        let depth = random.of(1..5);
        let tokens: Tokens = text(&mut random, depth);
        let text = bytes(&mut random, &tokens);
        if (40..SHORT).contains(&text.len()) && read(&text, SHEET_OUT, both).0.number() == 0 {
            texts.push(text);
        }
    }
    texts
}

#[test]
fn every_prefix_and_every_change_of_a_byte() {
    let mut both = Both::new();
    for text in short_texts(&mut both) {
        assert_eq!(read(&text, SHEET_OUT, &mut both).0.number(), 0, "{}", String::from_utf8_lossy(&text));
        for end in 0..text.len() {
            read(&text[..end], SHEET_OUT, &mut both);
        }
        let mut changed = text.clone();
        for at in 0..text.len() {
            for byte in 0..=255 {
                changed[at] = byte;
                read(&changed, SHEET_OUT, &mut both);
            }
            changed[at] = text[at];
        }
    }
}
