//! Sheets numbered anew (request 12): archive and reference agree, one sheet under two numberings becomes one file, and it means the same.

use crate::random::Random;
use crate::records::{redirect, shuffled};
use crate::sheets::{by_record, by_type};
use crate::tools::{check_cases, out_len, Both};
use crate::values::{damage, Value};
use lens::{raw, Sheet};

#[derive(Debug)]
struct Case {
    sheet: Vec<u8>,
    /// The sheet under another numbering.
    other: Vec<u8>,
    plan: Vec<u8>,
    out_len: usize,
}

fn case(random: &mut Random) -> Case {
    let (mut sheet, plan) = if random.percent(25) {
        (by_record(random), Vec::new())
    } else {
        let built = by_type(random);
        (built.bytes, built.plan.iter().flat_map(|ty| Value::random(random, ty).bytes()).collect())
    };
    match random.below(10) {
        0 | 1 => redirect(random, &mut sheet),
        2 => damage(&mut sheet, random),
        _ => {}
    }
    let other = shuffled(random, &sheet);
    Case { sheet, other, plan, out_len: out_len(random, raw::SHEET_OUT) }
}

fn number(sheet: &[u8], out_len: usize, both: &mut Both) -> (u8, Vec<u8>) {
    let (answer, numbered) = both.call(out_len, |out| raw::number(sheet, out), |out| reference::number(sheet, out));
    assert_eq!(answer.node().is_some(), answer.number() == 81);
    (answer.number(), numbered)
}

#[test]
fn sheets_numbered_anew() {
    check_cases(&[0, 1, 10, 11, 12, 13, 14, 81], case, |case, both| {
        let (refusal, numbered) = number(&case.sheet, case.out_len, both);
        if refusal > 0 {
            number(&case.other, case.out_len, both);
            return;
        }
        // Whichever numbering it had, and however often it is done.
        assert_eq!(number(&case.other, raw::SHEET_OUT, both), (0, numbered.clone()));
        assert_eq!(number(&numbered, raw::SHEET_OUT, both), (0, numbered.clone()));
        // It reads out and back as before, steps and refusals included.
        let (old, new) = (Sheet::new(&case.other), Sheet::new(&numbered));
        let got = old.get(&case.plan, 1000);
        assert_eq!(new.get(&case.plan, 1000), got);
        let view = got.map_or(vec![0x02], |got| got.view);
        assert_eq!(new.put(&case.plan, &view, 1000), old.put(&case.plan, &view, 1000));
    });
}
