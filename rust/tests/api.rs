//! The safe API beyond the examples of its documentation.

use lens::{Buffers, Explanation, Plan, Refusal, Sheet, Starts, ALLOWANCE_MAX};

const WRAP: Sheet = Sheet::new(&[0x01, 0x01, 0x00, 0x15, 0x01, 0x02, 0x10, 0x00, 0x13]);

#[test]
fn buffers_serve_after_a_refusal() {
    let mut buffers = Buffers::default();
    for _ in 0..3 {
        assert_eq!(buffers.get(WRAP, &[0x04, 0x00], 1000), Err(Refusal::PLAN_MALFORMED));
        assert_eq!(buffers.get(WRAP, &[0x00], 1000).unwrap().view, [0x03, 0x00, 0x02]);
        assert_eq!(buffers.put(WRAP, &[0x00], &[0x02], 1000), Err(Refusal::VIEW_KIND));
        let put = buffers.put(WRAP, &[0x00], &[0x03, 0x01, 0x02], 1000).unwrap();
        assert_eq!((put.plan.bytes(), put.plan.value(0), put.steps), (&[0x01][..], &[0x01][..], 3));
    }
}

#[test]
fn allowances() {
    assert_eq!(WRAP.get(&[0x00], 0), Err(Refusal::ALLOWANCE_RANGE));
    assert_eq!(WRAP.get(&[0x00], ALLOWANCE_MAX + 1), Err(Refusal::ALLOWANCE_RANGE));
    assert_eq!(WRAP.get(&[0x00], ALLOWANCE_MAX).unwrap().steps, 3);
    assert_eq!(WRAP.put(&[0x00], &[0x03, 0x01, 0x02], 2), Err(Refusal::SPENT));
}

#[test]
fn a_refusal_is_an_error_with_a_sentence() {
    fn run() -> Result<(), Box<dyn std::error::Error>> {
        WRAP.put(&[0x00], &[], 1000)?;
        Ok(())
    }
    let error = run().unwrap_err();
    assert_eq!(
        error.to_string(),
        "the list sent back, or the value for JSON, is not exactly one value: send one, with nothing behind it (refusal 32)"
    );
    for refusal in Refusal::ALL {
        assert!(refusal.to_string().contains(": ") && refusal.name() != "UNKNOWN", "{refusal:?}");
    }
}

/// A pair of variables 0 and 1 out of three.
const PAIR: Sheet = Sheet::new(&[0x01, 0x03, 0x00, 0x16, 0x01, 0x02, 0x10, 0x00, 0x10, 0x01]);
/// [1], True, 7.
const PLAN: [u8; 9] = [0x03, 0x04, 0x00, 0x01, 0x02, 0x01, 0x04, 0x00, 0x07];

#[test]
fn a_value_outlives_the_plan_that_found_it() {
    fn last(bytes: &[u8]) -> &[u8] {
        PAIR.load(bytes).unwrap().value(2)
    }
    // The very bytes of the plan, and no copy.
    assert!(std::ptr::eq(last(&PLAN), &PLAN[6..]));
}

#[test]
fn the_values_of_a_plan() {
    let plan = PAIR.load(&PLAN).unwrap();
    assert_eq!((plan.bytes(), plan.starts().numbers()), (&PLAN[..], &[0, 5, 6][..]));
    assert_eq!([0, 1, 2].map(|variable| plan.value(variable)), [&PLAN[..5], &PLAN[5..6], &PLAN[6..]]);
    for none in [3, 16, 256, usize::MAX] {
        assert_eq!(plan.value(none), []);
        assert_eq!(plan.starts().find(PLAN.len(), none), Err(Refusal::VARIABLE));
    }
}

/// A number of four bytes, over 65,535, beside one of two.
#[test]
fn numbers_of_four_bytes() {
    let plan = [0x06, 0x00, 0x01, 0x86, 0xA0, 0x04, 0xFF, 0xFF, 0x01]; // 100,000, 65,535, True
    let loaded = PAIR.load(&plan).unwrap();
    assert_eq!(loaded.starts().numbers(), [0, 5, 8]);
    assert_eq!((loaded.value(0), loaded.value(1)), (&plan[..5], &plan[5..8]));
    let got = PAIR.get(&plan, 1000).unwrap();
    assert_eq!(got.view, [&[0x05][..], &plan[..8]].concat());
    assert_eq!(PAIR.put(&plan, &got.view, 1000).unwrap().plan, plan);

    let turned = [0x05, 0x04, 0xFF, 0xFF, 0x06, 0xFF, 0xFF, 0xFF, 0xFF];
    let put = PAIR.put(&plan, &turned, 1000).unwrap();
    assert_eq!((put.value(0), put.value(1), put.value(2)), (&turned[1..4], &turned[4..], &[0x01][..]));

    let small = [0x06, 0x00, 0x00, 0xFF, 0xFF];
    assert_eq!(WRAP.get(&small, 1000), Err(Refusal::PLAN_MALFORMED));
    assert_eq!(WRAP.put(&plan[..5], &small, 1000), Err(Refusal::VIEW_MALFORMED));
    let constant = |second: u8| [0x01, 0x01, 0x00, 0x1D, 0x00, second, 0xFF, 0xFF];
    assert_eq!(Sheet::new(&constant(1)).get(&[0x00], 1000).unwrap().view, [0x06, 0x00, 0x01, 0xFF, 0xFF]);
    assert_eq!(Sheet::new(&constant(0)).get(&[0x00], 1000), Err(Refusal::SHEET_RANGE));
}

#[test]
fn loading_refuses() {
    assert_eq!(Sheet::new(&[]).load(&[]), Err(Refusal::SHEET_EMPTY));
    assert_eq!(Sheet::new(&[0x01, 0x11, 0x00, 0x10, 0x00]).load(&[]), Err(Refusal::SHEET_RANGE));
    assert_eq!(PAIR.load(&PLAN[..8]), Err(Refusal::PLAN_MALFORMED));
    assert_eq!(PAIR.load(&PLAN[..6]), Err(Refusal::PLAN_COUNT));
    assert_eq!(PAIR.load(&[0x05; 300]), Err(Refusal::PLAN_LONG));
}

#[test]
fn the_starts_of_a_put() {
    let put = PAIR.put(&PLAN, &[0x05, 0x02, 0x04, 0x00, 0x09], 1000).unwrap();
    assert_eq!(put.plan, [0x02, 0x04, 0x00, 0x09, 0x04, 0x00, 0x07]);
    assert_eq!(put.starts.numbers(), [0, 1, 4]);
    assert_eq!([0, 1, 2].map(|variable| put.value(variable)), [&put.plan[..1], &put.plan[1..4], &put.plan[4..]]);
    assert_eq!(put.value(3), []);
    assert_eq!(PAIR.load(&put.plan), Ok(Plan::with_starts(&put.plan, put.starts)));
    let mut buffers = Buffers::new();
    let within = buffers.put(PAIR, &PLAN, &[0x05, 0x02, 0x04, 0x00, 0x09], 1000).unwrap();
    assert_eq!((within.plan, within.steps), (Plan::with_starts(&put.plan, put.starts), put.steps));
}

/// None, some and all of three variables, and one with its old value.
#[test]
fn the_variables_that_a_put_writes() {
    let variables = |put: &lens::Put| (0..3).filter(|&variable| put.written(variable)).collect::<Vec<_>>();
    let some = PAIR.put(&PLAN, &[0x05, 0x02, 0x04, 0x00, 0x09], 1000).unwrap();
    assert_eq!((some.bits, variables(&some)), (0b011, vec![0, 1]));
    let old = PAIR.put(&PLAN, &PAIR.get(&PLAN, 1000).unwrap().view, 1000).unwrap();
    assert_eq!((old.bits, &old.plan[..]), (0b011, &PLAN[..]));
    let none = Sheet::new(&[0x01, 0x03, 0x00, 0x12]).put(&PLAN, &[0x01], 1000).unwrap();
    assert_eq!((none.bits, variables(&none)), (0, vec![]));
    let all = Sheet::new(&[0x01, 0x03, 0x00, 0x16, 0x01, 0x02, 0x10, 0x02, 0x16, 0x03, 0x04, 0x10, 0x00, 0x10, 0x01]);
    let all = all.put(&PLAN, &[0x05, 0x00, 0x05, 0x01, 0x01], 1000).unwrap();
    assert_eq!((all.bits, &all.plan[..]), (0b111, &[0x01, 0x01, 0x00][..]));
    for none in [3, 15, 16, 17, 64, usize::MAX] {
        assert!(!all.written(none), "{none}");
    }
    let mut buffers = Buffers::new();
    let within = buffers.put(PAIR, &PLAN, &[0x05, 0x02, 0x04, 0x00, 0x09], 1000).unwrap();
    assert_eq!((within.bits, within.written(1), within.written(2)), (0b011, true, false));
}

#[test]
fn damaged_starts_are_held_and_refused() {
    let many: Vec<u16> = (0..20).collect();
    for damaged in [&[][..], &[1], &[1, 5, 6], &[0, 6, 5], &[0, 5, 5], &[0, 5, 9], &[0, 65_535], &many[..17], &many] {
        let starts = Starts::new(damaged);
        assert_eq!(starts.numbers(), &damaged[..damaged.len().min(16)]);
        for variable in [0, 2, 17, usize::MAX] {
            assert_eq!(starts.find(PLAN.len(), variable), Err(Refusal::STARTS), "{damaged:?}");
            assert_eq!(Plan::with_starts(&PLAN, starts).value(variable), []);
        }
    }
    assert_ne!(Starts::new(&many[..16]), Starts::new(&many[..17]));
    assert_eq!(Starts::new(&many[..16]).find(16, 15), Ok(15..16));
    assert_eq!(Starts::new(&[0, 9]).find(usize::MAX, 1), Ok(9..usize::MAX));
}

#[test]
fn why_it_is_refused() {
    let mut buffers = Buffers::new();
    for _ in 0..2 {
        assert_eq!(buffers.why_get(WRAP, &[0x00], 3), None);
        assert_eq!(buffers.why_put(WRAP, &[0x00], &[0x03, 0x01, 0x02], 1000), None);
        let constant = buffers.why_put(WRAP, &[0x00], &[0x03, 0x01, 0x03, 0x01, 0x02], 1000).unwrap();
        assert_eq!((constant.refusal, constant.node(), constant.depth()), (Refusal::CONSTANT, Some(2), 2));
        assert_eq!((&constant.chain[..], constant.first), (&[0, 2][..], None));
    }
    // From before the walk: the number alone.
    for (allowance, plan, refusal) in [(0, &[0x00][..], Refusal::ALLOWANCE_RANGE), (1, &[], Refusal::PLAN_COUNT)] {
        let early = Explanation { refusal, chain: Vec::new(), first: None };
        assert_eq!((early.node(), early.depth()), (None, 0));
        assert_eq!(WRAP.why_get(plan, allowance), Some(early.clone()));
        assert_eq!(WRAP.why_put(plan, &[0x02], allowance), Some(early));
    }
}

/// A call of a section that calls itself.
const LOOP: Sheet = Sheet::new(&[0x01, 0x01, 0x00, 0x20, 0x00, 0x1A, 0x00, 0x00, 0x00]);

#[test]
fn the_longest_chain() {
    for why in [LOOP.why_get(&[0x00], ALLOWANCE_MAX), LOOP.why_put(&[0x00], &[0x00], ALLOWANCE_MAX)] {
        assert_eq!(why, Some(Explanation { refusal: Refusal::DEPTH, chain: vec![0; 49], first: None }));
    }
}
