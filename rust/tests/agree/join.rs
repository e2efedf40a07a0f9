//! Two sheets joined (request 7): archive and reference agree, and the joined sheet reads out and back as the two do, one after the other.

use crate::random::Random;
use crate::sheets::{by_record, by_type};
use crate::tools::{check_cases, out_len, Both};
use crate::values::{damage, Value};
use lens::{raw, Refusal, Sheet};

#[derive(Debug)]
struct Case {
    first: Vec<u8>,
    second: Vec<u8>,
    /// A plan that the first sheet is meant for.
    plan: Vec<u8>,
    out_len: usize,
}

fn case(random: &mut Random) -> Case {
    let (mut first, plan) = if random.percent(30) {
        (sheet(random), Vec::new())
    } else {
        let built = by_type(random);
        (built.bytes, built.plan.iter().flat_map(|ty| Value::random(random, ty).bytes()).collect())
    };
    let mut second = if random.percent(5) { first.clone() } else { sheet(random) };
    // Mostly of one k.
    if random.percent(85) && first.len() > 1 && second.len() > 1 {
        second[1] = first[1];
    }
    match random.below(12) {
        0 => damage(&mut first, random),
        1 => damage(&mut second, random),
        2 => {
            damage(&mut first, random);
            damage(&mut second, random);
        }
        _ => {}
    }
    Case { first, second, plan, out_len: out_len(random, raw::SHEET_OUT) }
}

/// A sheet of any size, or one with so many nodes and sections that two hardly fit.
fn sheet(random: &mut Random) -> Vec<u8> {
    match random.below(10) {
        0 => {
            let (sections, nodes) = (random.of(3..6), random.of(97..103));
            let records = [0x20, 0x00].repeat(sections);
            [&[0x01, 1, 0x00][..], &records, &vec![0x12; nodes]].concat()
        }
        1..=4 => by_record(random),
        _ => by_type(random).bytes,
    }
}

#[test]
fn two_sheets_joined() {
    check_cases(&[0, 1, 10, 11, 12, 13, 14, 83, 84], case, |case, both| {
        let Case { first, second, plan, out_len } = case;
        let (answer, joined) = join(first, second, *out_len, both);
        if answer > 0 {
            return;
        }
        assert!(joined.len() <= 1619, "{} bytes", joined.len());
        let [pair, first, second] = [&joined, first, second].map(|bytes| Sheet::new(bytes));
        let (left, right) = (first.get(plan, 1000), second.get(plan, 1000));
        let whole = pair.get(plan, 2001);
        match (&left, &right) {
            (Ok(left), Ok(right)) => match &whole {
                Ok(whole) => {
                    assert_eq!(whole.view, [&[0x05][..], &left.view, &right.view].concat());
                    assert_eq!(whole.steps, 1 + left.steps + right.steps);
                    assert_eq!(pair.get(plan, whole.steps).as_ref(), Ok(whole));
                    assert_eq!(pair.get(plan, whole.steps - 1), Err(Refusal::SPENT));
                    // Unedited, it is taken back; so are both parts.
                    assert_eq!(pair.put(plan, &whole.view, 200_000).map(|put| put.plan).as_ref(), Ok(plan));
                }
                Err(refusal) => assert!([Refusal::DEPTH, Refusal::VALUE_LONG].contains(refusal), "{refusal:?}"),
            },
            // The first refusal is that of the first sheet, or of a level less.
            (Err(refusal), _) if *refusal != Refusal::SPENT => assert!([Err(*refusal), Err(Refusal::DEPTH)].contains(&whole)),
            _ => {}
        }
    });
}

fn join(first: &[u8], second: &[u8], out_len: usize, both: &mut Both) -> (u8, Vec<u8>) {
    let archive = |out: &mut [u8]| raw::join(first, second, out);
    let (answer, joined) = both.call(out_len, archive, |out| reference::join(first, second, out));
    (answer.number(), joined)
}
