//! One value of a full plan by its number, beside readings from the front.

use crate::jobs::full_plan;
use crate::{median, ratio, times};
use lens::{raw, Sheet};
use std::hint::black_box;

pub const NAME: &str = "lookup: the last of 16 values of 255 bytes";

/// Sixteen values; the root is the last.
const SHEET: &[u8] = &[0x01, 0x10, 0x00, 0x10, 0x0F];
const LAST: usize = 15;

/// The table, with an empty line before it.
pub fn lines() -> Vec<String> {
    let bytes = full_plan();
    let loaded = Sheet::new(SHEET).load(&bytes).unwrap();
    let found = loaded.value(LAST);
    assert_eq!(Some(found), reference::from_front(&bytes, LAST), "the archive and the reference find other values");
    assert_eq!(found.len(), 255);

    let mut starts = [0; raw::STARTS_MAX];
    let [value, load, front] = times([
        &mut || {
            black_box(black_box(&loaded).value(black_box(LAST)));
        },
        &mut || {
            black_box(raw::load(black_box(SHEET), black_box(&bytes), &mut starts));
        },
        &mut || {
            black_box(reference::from_front(black_box(&bytes), black_box(LAST)));
        },
    ]);
    let line = |how: &str, ns: &[f64], ratio: &str| format!("{how:<60} {:>12.1} {ratio:>8}", median(ns.to_vec()));
    let read = |how: &str, ns: &[f64]| line(how, ns, &format!("{:.0}", ratio(ns, &value)));
    vec![
        String::new(),
        format!("{NAME:<60} {:>12} {:>8}", "ns", "ratio"),
        line("by its number: lens_find, and the slice", &value, "1"),
        read("read from the front: lens_load, with the sheet", &load),
        read("read from the front: Rust, the plan alone", &front),
    ]
}
