//! The stack that a call of the archive takes, on the deepest jobs and texts. `cargo test --test stack -- --nocapture` prints it job by job.

mod jobs;
mod painted;
mod texts;

use lens::raw;
use reference::job::Job;

struct Lent {
    out: Vec<u8>,
    scratch: Vec<u8>,
    starts: [u16; raw::STARTS_MAX],
}

fn lent() -> Lent {
    Lent { out: vec![0; raw::PUT_OUT], scratch: vec![0; raw::SCRATCH], starts: [0; raw::STARTS_MAX] }
}

/// The tools that take no job: the sheet numbered, joined with itself, asked for its growth and checked by types, its plan judged, and lists 48
/// deep as JSON.
fn run_tools(job: &Job, lent: &mut Lent) {
    let Lent { out, scratch, .. } = lent;
    raw::number(&job.sheet, out);
    raw::join(&job.sheet, &job.sheet, out);
    raw::growth(&job.sheet, 0);
    raw::check_types(&job.sheet, &[0x30; 241]);
    raw::check_plan(&job.sheet, &job.plan, job.view.as_ref().unwrap_or(&job.plan), &job.plan, job.allowance, scratch);
    raw::to_json(&[[3; 47].as_slice(), &[2; 48]].concat(), out);
    raw::from_json(&[[b'['; 48], [b']'; 48]].concat(), out);
    out.fill(0);
}

/// Runs the tools, loads the job's plan, asks why the job is refused and does it, a put alone, with starts, and with starts and bits; gives the
/// answer of the put alone.
fn run(job: &Job, lent: &mut Lent) -> u64 {
    run_tools(job, lent);
    let Lent { out, scratch, starts } = lent;
    raw::load(&job.sheet, &job.plan, starts);
    let chain = &mut [0; raw::CHAIN_MAX];
    let answer = match &job.view {
        None => {
            raw::why_get(&job.sheet, &job.plan, job.allowance, scratch, chain);
            raw::get(&job.sheet, &job.plan, job.allowance, out, scratch)
        }
        Some(view) => {
            raw::why_put(&job.sheet, &job.plan, view, job.allowance, scratch, chain);
            raw::put_written(&job.sheet, &job.plan, view, job.allowance, out, scratch, starts, &mut 0);
            raw::put_starts(&job.sheet, &job.plan, view, job.allowance, out, scratch, starts);
            raw::put(&job.sheet, &job.plan, view, job.allowance, out, scratch)
        }
    };
    answer.0
}

/// Reads a text and prints its sheet: both answers.
fn run_text(text: &str, sheet: &mut [u8], printed: &mut [u8]) -> [u64; 2] {
    let read = raw::read_sheet(text.as_bytes(), sheet, &mut 0);
    [read.0, raw::print_sheet(&sheet[..read.length()], printed).0]
}

/// The texts are sheets that have hardly room for a node more.
#[test]
fn the_texts_are_the_deepest() {
    for deep in texts::deepest() {
        let (mut sheet, mut printed) = ([0; raw::SHEET_OUT], [0; raw::TEXT_OUT]);
        let answers = run_text(&deep.text, &mut sheet, &mut printed);
        assert_eq!(answers.map(|answer| answer as u8), [0, 0], "{}", deep.name);
        let more = format!("{} section g(_, _) = [0, 0, 0, 0]", deep.text);
        assert_eq!(raw::read_sheet(more.as_bytes(), &mut sheet, &mut 0).number(), 94, "{}", deep.name);
    }
}

/// The jobs are as deep as they say: a chain that ends at depth 48 gives its list or plan, a longer one is refused.
#[test]
fn the_jobs_are_the_deepest() {
    for deep in jobs::deepest() {
        let mut theirs = lent();
        let mut ours = lent();
        let answer = deep.job.run(&mut theirs.out, &mut theirs.scratch);
        assert!(deep.number.is_none_or(|number| number == answer as u8), "{}", deep.name);
        assert_eq!((run(&deep.job, &mut ours), &ours.out), (answer, &theirs.out), "{}", deep.name);
    }
}

/// None takes more than `raw::STACK`, which is little more than the most that is measured.
#[test]
fn the_stack_is_as_stated() {
    let mut most = 0;
    for deep in jobs::deepest() {
        let mut lent = lent();
        let used = painted::stack_of(&mut || {
            run(&deep.job, &mut lent);
        });
        println!("{used:>8} {}", deep.name);
        most = most.max(used);
    }
    for deep in texts::deepest() {
        let (mut sheet, mut printed) = (vec![0; raw::SHEET_OUT], vec![0; raw::TEXT_OUT]);
        let used = painted::stack_of(&mut || {
            run_text(&deep.text, &mut sheet, &mut printed);
        });
        println!("{used:>8} a text of {}", deep.name);
        most = most.max(used);
    }
    let rounded = most.next_multiple_of(PAGE);
    println!("{most:>8} bytes of stack are the most: STACK is to be {rounded}");
    assert!(
        most <= raw::STACK && raw::STACK <= most + 2 * PAGE,
        "measured: {most} bytes. Set STACK in rust/src/raw.rs and include/lens.h, and the number in rust/README.md, to {rounded}"
    );
}

/// The system hands out stack by pages.
const PAGE: usize = 4096;

/// What a thread needs beside the call: its own data, and the frames of the test.
const LITTLE: usize = 2 * PAGE;

#[test]
fn a_thread_with_little_more_does() {
    for deep in jobs::deepest() {
        let mut lent = lent();
        let thread = std::thread::Builder::new().stack_size(raw::STACK + LITTLE);
        let answer = thread.spawn(move || run(&deep.job, &mut lent)).unwrap().join().unwrap();
        assert!(deep.number.is_none_or(|number| number == answer as u8), "{}", deep.name);
    }
    for deep in texts::deepest() {
        let (mut sheet, mut printed) = (vec![0; raw::SHEET_OUT], vec![0; raw::TEXT_OUT]);
        let thread = std::thread::Builder::new().stack_size(raw::STACK + LITTLE);
        let answers = thread.spawn(move || run_text(&deep.text, &mut sheet, &mut printed)).unwrap().join().unwrap();
        assert_eq!(answers.map(|answer| answer as u8), [0, 0], "{}", deep.name);
    }
}
