//! Jobs in hexadecimal, and what the program prints for them.

use reference::job::{printed, Job};
use reference::vectors::unhex;

pub fn run(sheet: &str, plan: &str, view: Option<&str>, allowance: u32) -> String {
    let job =
        Job { sheet: unhex(sheet).unwrap(), plan: unhex(plan).unwrap(), view: view.map(|view| unhex(view).unwrap()), allowance };
    printed(&job.to_input().unwrap(), Job::run)
}

pub fn get(sheet: &str, plan: &str) -> String {
    run(sheet, plan, None, 1000)
}

pub fn put(sheet: &str, plan: &str, view: &str) -> String {
    run(sheet, plan, Some(view), 1000)
}

pub fn ok(steps: u32, bytes: &str) -> String {
    format!("ok {steps} {}", bytes.replace(' ', ""))
}

/// A list of numbers, each of two or of four bytes.
pub fn list(numbers: &[u32]) -> String {
    let number = |n: u32| if n > 65_535 { format!("06 {n:08X}") } else { format!("04 {n:04X}") };
    let members: String = numbers.iter().map(|&n| format!("03 {} ", number(n))).collect();
    members + "02"
}
