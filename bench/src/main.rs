//! The archive and the independent Rust implementation on the same jobs in the same buffers, for release; and a value of a plan by its
//! number, beside readings from the front; and the tools of sheets, of their texts, of JSON, and the checker of plans.
//!
//! Both clear 65,536 bytes of scratch in every call of a job, and that is counted on both sides.

mod checker;
mod jobs;
mod lookup;
mod tools;

use jobs::{rows, Row};
use reference::answer::taken;
use reference::job::Job;
use reference::{SCRATCH, TEXT_OUT};
use std::hint::black_box;
use std::io::{IsTerminal, Write};
use std::time::{Duration, Instant};

/// Batches of each side; the table has their medians.
const BATCHES: usize = 101;
/// About how long a batch takes.
const BATCH: Duration = Duration::from_millis(1);

struct Buffers {
    out: Vec<u8>,
    scratch: Vec<u8>,
}

type Run = fn(&Job, &mut Buffers) -> u64;

fn run_archive(job: &Job, buffers: &mut Buffers) -> u64 {
    let (out, scratch) = (&mut buffers.out, &mut buffers.scratch);
    match &job.view {
        None => lens::raw::get(&job.sheet, &job.plan, job.allowance, out, scratch).0,
        Some(view) => lens::raw::put(&job.sheet, &job.plan, view, job.allowance, out, scratch).0,
    }
}

fn run_reference(job: &Job, buffers: &mut Buffers) -> u64 {
    job.run(&mut buffers.out, &mut buffers.scratch)
}

/// Nanoseconds of one call, over a batch.
fn time(calls: u32, mut call: impl FnMut()) -> f64 {
    let start = Instant::now();
    for _ in 0..calls {
        call();
    }
    start.elapsed().as_nanos() as f64 / f64::from(calls)
}

/// The times of several sides, measured in turn.
fn times<const N: usize>(mut sides: [&mut dyn FnMut(); N]) -> [Vec<f64>; N] {
    let mut times: [Vec<f64>; N] = std::array::from_fn(|_| Vec::new());
    let calls: Vec<u32> = sides
        .iter_mut()
        .map(|call| {
            let once = time(1, &mut *call).min(time(3, &mut *call)).max(1.0);
            (BATCH.as_nanos() as f64 / once).clamp(1.0, 1e6) as u32
        })
        .collect();
    for _ in 0..BATCHES {
        for (side, call) in sides.iter_mut().enumerate() {
            times[side].push(time(calls[side], &mut *call));
        }
    }
    times
}

fn median(mut times: Vec<f64>) -> f64 {
    times.sort_by(f64::total_cmp);
    times[times.len() / 2]
}

/// The median of the ratios of batches that follow one another: a machine that is busy for a while slows both.
fn ratio(ours: &[f64], theirs: &[f64]) -> f64 {
    median(ours.iter().zip(theirs).map(|(ours, theirs)| ours / theirs).collect())
}

struct Measured {
    ours: f64,
    theirs: f64,
    ratio: f64,
}

fn measure(job: &Job, buffers: &mut [Buffers; 2]) -> Measured {
    let [ours, theirs] = buffers;
    let side = |run: Run, buffers: &mut Buffers| {
        black_box(run(black_box(job), buffers));
    };
    let [ours, theirs] = times([&mut || side(run_archive, ours), &mut || side(run_reference, theirs)]);
    let ratio = ratio(&ours, &theirs);
    Measured { ours: median(ours), theirs: median(theirs), ratio }
}

fn same_answers(row: &Row, buffers: &mut [Buffers; 2]) -> Result<u32, String> {
    let answer = run_archive(&row.job, &mut buffers[0]);
    let wanted = run_reference(&row.job, &mut buffers[1]);
    let success = taken(wanted);
    let length = success.unwrap_or_default().length;
    if answer != wanted || buffers[0].out[..length] != buffers[1].out[..length] {
        return Err(format!("{}: the archive answers {answer:016X}, the reference {wanted:016X}, or other bytes", row.name));
    }
    match success {
        Err(refusal) if !row.name.starts_with("refused") => Err(format!("{}: refused with {refusal}", row.name)),
        _ => Ok(success.unwrap_or_default().steps),
    }
}

fn main() {
    let word = std::env::args().nth(1).unwrap_or_default();
    let rows: Vec<Row> = rows().into_iter().filter(|row| row.name.contains(&word)).collect();
    let new = || Buffers { out: vec![0; TEXT_OUT], scratch: vec![0; SCRATCH] };
    let mut buffers = [new(), new()];

    progress("zeroing alone");
    let mut scratch = vec![1u8; SCRATCH];
    let [zeroing] = times([&mut || black_box(&mut scratch).fill(0)]).map(median);
    let only_clears = Job { sheet: Vec::new(), plan: Vec::new(), view: None, allowance: 1 };
    let clearing = measure(&only_clears, &mut buffers).ours;

    let mut lines = Vec::new();
    let mut within = 0;
    for (number, row) in rows.iter().enumerate() {
        progress(&format!("{} of {}: {}", number + 1, rows.len(), row.name));
        let steps = same_answers(row, &mut buffers).unwrap_or_else(|fault| {
            eprintln!("\n{fault}");
            std::process::exit(1);
        });
        let Measured { ours, theirs, ratio } = measure(&row.job, &mut buffers);
        let limit = row.limit;
        within += usize::from(ratio <= limit);
        let a_step = |ns: f64| if steps == 0 { "-".to_string() } else { format!("{:.1}", ns / f64::from(steps)) };
        lines.push(format!(
            "{:<46} {steps:>7} {ours:>12.0} {:>8} {theirs:>12.0} {:>8} {ratio:>6.2} {limit:>5.1} {:<4} {:>7.0}%",
            row.name,
            a_step(ours),
            a_step(theirs),
            if ratio <= limit { "" } else { "over" },
            (clearing / ours * 100.0).min(100.0),
        ));
    }
    let mut lookups = Vec::new();
    if lookup::NAME.contains(&word) {
        progress(lookup::NAME);
        lookups = lookup::lines();
    }
    let tools = tools::lines(&word, &mut buffers).and_then(|mut lines| {
        lines.extend(checker::lines(&word, &mut buffers)?);
        Ok(lines)
    });
    let tools = tools.unwrap_or_else(|fault| {
        eprintln!("\n{fault}");
        std::process::exit(1);
    });
    progress("");

    println!("{}", machine());
    println!("Nanoseconds, the median of {BATCHES} batches; the ratio is the median of theirs. Scratch is cleared in every call, on both sides.");
    println!("Zeroing 65,536 bytes alone takes {zeroing:.0}; the archive's call that does nothing else, {clearing:.0}: its share of a call is the column clearing.");
    println!();
    println!(
        "{:<46} {:>7} {:>12} {:>8} {:>12} {:>8} {:>6} {:>5} {:<4} {:>8}",
        "job", "steps", "archive/call", "/step", "Rust/call", "/step", "ratio", "limit", "", "clearing"
    );
    for line in &lines {
        println!("{line}");
    }
    println!("\n{within} of {} jobs within their limit", rows.len());
    for line in lookups.iter().chain(&tools) {
        println!("{line}");
    }
}

/// Shows where the run is: in one line on a terminal, or else line by line.
fn progress(text: &str) {
    let mut stderr = std::io::stderr();
    let _ = if stderr.is_terminal() { write!(stderr, "\r\x1b[K{text}") } else { writeln!(stderr, "{text}") };
    let _ = stderr.flush();
}

fn machine() -> String {
    let cpus = std::fs::read_to_string("/proc/cpuinfo").unwrap_or_default();
    let name = cpus
        .lines()
        .find_map(|line| line.strip_prefix("model name"))
        .map_or("unknown processor", |name| name.trim_start_matches([' ', '\t', ':']));
    let load = std::fs::read_to_string("/proc/loadavg").unwrap_or_default();
    format!("{name}; load {}", load.split(' ').next().unwrap_or("unknown"))
}
