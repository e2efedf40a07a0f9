//! The checker of plans beside a get of the same plan, and beside the Rust reference's checker.

use crate::jobs::{rows, run};
use crate::{median, ratio, times, Buffers};
use lens::raw;
use reference::job::Job;
use std::hint::black_box;

const NAME: &str = "check: ";

/// The puts whose new plans are checked, by a word of their names.
const PUTS: [&str; 4] = [
    "join 15 and 48 numbers, put",
    "16 numbers to a list, put",
    "add to each of 63 numbers, put",
    "full plan, 16 values of 255 bytes, put",
];

/// The table, with an empty line before it: a line for each put whose new plan is checked, none where no name has the word.
pub fn lines(word: &str, buffers: &mut [Buffers; 2]) -> Result<Vec<String>, String> {
    let mut lines = Vec::new();
    for row in rows() {
        let name = format!("{NAME}{}", row.name);
        if PUTS.iter().any(|put| row.name.contains(put)) && name.contains(word) {
            crate::progress(&name);
            lines.push(line(&name, &row.job, buffers)?);
        }
    }
    if !lines.is_empty() {
        let head = format!("{:<54} {:>12} {:>12} {:>8} {:>12} {:>8}", "new plan of", "get", "check", "/get", "Rust check", "/Rust");
        lines.splice(0..0, [String::new(), head]);
    }
    Ok(lines)
}

fn line(name: &str, job: &Job, buffers: &mut [Buffers; 2]) -> Result<String, String> {
    let Job { sheet, plan: old, view, allowance } = job;
    let view = view.as_deref().unwrap_or_default();
    let new = run(job).0;
    let ours = |scratch: &mut [u8]| raw::check_plan(black_box(sheet), old, view, black_box(&new), *allowance, scratch).0;
    let theirs = |scratch: &mut [u8]| reference::check_plan(black_box(sheet), old, view, black_box(&new), *allowance, scratch);
    let [first, second] = buffers;
    let (answer, wanted) = (ours(&mut first.scratch), theirs(&mut second.scratch));
    // A yes: what a put gives is taken.
    if answer != wanted || wanted != 0x100 {
        return Err(format!("{name}: the archive answers {answer:016X}, the reference {wanted:016X}"));
    }
    let (mut out, mut scratch) = (first.out.clone(), first.scratch.clone());
    let [get, check, rust] = times([
        &mut || {
            black_box(raw::get(black_box(sheet), black_box(&new), *allowance, &mut out, &mut scratch));
        },
        &mut || {
            black_box(ours(&mut first.scratch));
        },
        &mut || {
            black_box(theirs(&mut second.scratch));
        },
    ]);
    let (to_get, to_rust) = (ratio(&check, &get), ratio(&check, &rust));
    let [get, check, rust] = [get, check, rust].map(median);
    Ok(format!("{name:<54} {get:>12.0} {check:>12.0} {to_get:>8.2} {rust:>12.0} {to_rust:>8.2}"))
}
