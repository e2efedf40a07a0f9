//! The archive and the reference agree, and the laws hold of the archive's answers: both of document 01, that of a plan's starts, that of
//! the variables that a put wrote, that of an edit taken back, and that a refusal is explained by its own number.
//!
//! Each case is made from its number. `LENS_CASES` says how many there are (200,000), `LENS_FIRST` which is the first (0). Tools that walk
//! no plan have tests of their own, of 20,000 cases each.

mod cases;
mod checker;
mod edges;
mod growth;
mod join;
mod json;
mod lookups;
mod numbering;
mod random;
mod records;
mod seen;
mod sent;
mod sheets;
mod starts;
mod switches;
mod text;
mod texts;
mod tools;
mod typed;
mod types;
mod undone;
mod values;
mod why;
mod written;

use cases::{case, Case, MORE};
use lens::raw::{self, Answer, PUT_OUT, SCRATCH, STARTS_MAX};
use lens::ALLOWANCE_MAX;
use lookups::lookup;
use random::Random;
use reference::job::Job;
use reference::vectors::hex;
use seen::Seen;
use starts::{check_behind, check_load, check_values, Given, BEFORE};
use switches::takes_after;
use undone::check_undone;
use why::check_why;
use written::{check_bits, check_union, wrote_old};

const CASES: u64 = 200_000;

/// Each buffer has bytes behind what is lent, which nobody may touch.
const GUARD: usize = 64;
const OUT: usize = PUT_OUT + MORE + GUARD;
const ROOM: usize = SCRATCH + MORE + GUARD;

fn setting(name: &str, otherwise: u64) -> u64 {
    std::env::var(name).map_or(otherwise, |text| text.parse().unwrap_or_else(|_| panic!("{name}={text}: no number")))
}

#[test]
fn archive_and_reference_agree() {
    let (first, count) = (setting("LENS_FIRST", 0), setting("LENS_CASES", CASES));
    let mut bench = Bench::new();
    let mut seen = Seen::default();
    for number in first..first + count {
        let case = case(number, &mut bench.spare);
        if let Err(fault) = bench.check(&case, &mut seen).and_then(|()| check_lookups(number, &case.job, &mut seen)) {
            panic!("{}", report(number, &case, &fault));
        }
        if (number - first + 1) % 20_000 == 0 {
            eprintln!("{} of {count} cases", number - first + 1);
        }
    }
    println!("{seen}{} laws checked", bench.laws);
    if count >= CASES {
        seen.assert_wide();
    }
}

/// Loads the job's plan, and looks up a value by its starts or by others.
fn check_lookups(number: u64, job: &Job, seen: &mut Seen) -> Result<(), String> {
    let loaded = check_load(&job.sheet, &job.plan)?;
    seen.load(loaded.as_ref().err().copied().unwrap_or(0));
    let starts = loaded.as_ref().map_or(&[][..], Given::numbers);
    let found = lookup(&mut Random::new(!number), starts, job.plan.len()).check()?;
    seen.lookup(found.err().unwrap_or(0));
    Ok(())
}

/// A fault as a person needs it: the job is ready for `bin/seats`.
fn report(number: u64, case: &Case, fault: &str) -> String {
    let job = case.job.to_input().map_or_else(
        || format!("no job of the program: allowance {}, job {:02X?}", case.job.allowance, case.job),
        |input| format!("bin/seats {}", hex(&input)),
    );
    format!(
        "case {number}: {fault}\n\noutput {} bytes, scratch {} bytes\n{job}\n\nagain: LENS_FIRST={number} LENS_CASES=1 cargo test --test agree\n",
        case.out_len, case.scratch_len
    )
}

/// One side's buffers, filled with noise before each call.
struct Side {
    out: Vec<u8>,
    scratch: Vec<u8>,
    starts: [u16; STARTS_MAX],
    written: u16,
}

/// What stands in the lent bits before a call. No put of fewer than 16 variables sets them all.
const BITS_BEFORE: u16 = 0xFFFF;

/// A job done in lent output, scratch, starts and bits.
type Run = fn(&Job, &mut [u8], &mut [u8], &mut [u16; STARTS_MAX], &mut u16) -> u64;

impl Side {
    fn new() -> Side {
        Side { out: vec![0; OUT], scratch: vec![0; ROOM], starts: BEFORE, written: BITS_BEFORE }
    }

    fn call(&mut self, noise: &[u8], case: &Case, run: Run) -> Answer {
        self.out.copy_from_slice(&noise[..OUT]);
        self.scratch.copy_from_slice(&noise[..ROOM]);
        self.starts = BEFORE;
        self.written = BITS_BEFORE;
        let (out, scratch) = (&mut self.out[..case.out_len], &mut self.scratch[..case.scratch_len]);
        Answer(run(&case.job, out, scratch, &mut self.starts, &mut self.written))
    }

    /// What the papers say of the buffers after an answer.
    fn judge(&self, noise: &[u8], answer: Answer) -> Result<(), String> {
        let written = if answer.number() == 0 { answer.length() } else { 0 };
        if self.out[written..] != noise[written..OUT] {
            return Err("output bytes behind the answer changed".into());
        }
        let cleared = if (1..=3).contains(&answer.number()) { 0 } else { SCRATCH };
        if self.scratch[..cleared] != [0; SCRATCH][..cleared] {
            return Err("scratch is not cleared".into());
        }
        if self.scratch[cleared..] != noise[cleared..ROOM] {
            return Err("scratch bytes that are to stay changed".into());
        }
        if answer.number() != 0 && self.written != BITS_BEFORE {
            return Err(format!("the bits became {:04X}", self.written));
        }
        check_behind(&self.starts, answer)
    }
}

/// A get, or a put without starts.
fn run_plain(job: &Job, out: &mut [u8], scratch: &mut [u8]) -> u64 {
    match &job.view {
        None => raw::get(&job.sheet, &job.plan, job.allowance, out, scratch).0,
        Some(view) => raw::put(&job.sheet, &job.plan, view, job.allowance, out, scratch).0,
    }
}

/// A get, or a put with starts.
fn run_starts(job: &Job, out: &mut [u8], scratch: &mut [u8], starts: &mut [u16; STARTS_MAX]) -> u64 {
    match &job.view {
        None => run_plain(job, out, scratch),
        Some(view) => raw::put_starts(&job.sheet, &job.plan, view, job.allowance, out, scratch, starts).0,
    }
}

/// A get, or a put with starts and bits.
fn run_archive(job: &Job, out: &mut [u8], scratch: &mut [u8], starts: &mut [u16; STARTS_MAX], written: &mut u16) -> u64 {
    match &job.view {
        None => run_plain(job, out, scratch),
        Some(view) => raw::put_written(&job.sheet, &job.plan, view, job.allowance, out, scratch, starts, written).0,
    }
}

fn run_reference(job: &Job, out: &mut [u8], scratch: &mut [u8], starts: &mut [u16; STARTS_MAX], written: &mut u16) -> u64 {
    match &job.view {
        None => job.run(out, scratch),
        Some(view) => reference::put_written(&job.sheet, &job.plan, view, job.allowance, out, scratch, starts, written),
    }
}

/// What the checks work with.
struct Bench {
    noise: Vec<u8>,
    archive: Side,
    reference: Side,
    /// The archive's, for a put with less, and for why a job is refused.
    less: Side,
    spare: Vec<u8>,
    laws: u64,
}

impl Bench {
    fn new() -> Bench {
        let mut random = Random::new(0);
        Bench {
            // No byte is 0, so that a cleared byte is told from one that stayed.
            noise: (0..ROOM).map(|_| random.byte() | 1).collect(),
            archive: Side::new(),
            reference: Side::new(),
            less: Side::new(),
            spare: vec![0; SCRATCH],
            laws: 0,
        }
    }

    fn check(&mut self, case: &Case, seen: &mut Seen) -> Result<(), String> {
        let answer = self.archive.call(&self.noise, case, run_archive);
        let wanted = self.reference.call(&self.noise, case, run_reference);
        if answer != wanted {
            return Err(format!("the archive answers {}, the reference {}", told(answer), told(wanted)));
        }
        if self.archive.out != self.reference.out {
            let [got, wanted] = [&self.archive, &self.reference].map(|side| hex(&side.out[..answer.length()]));
            return Err(format!("the archive gives {got}, the reference {wanted}, or other bytes behind it"));
        }
        if self.archive.starts != self.reference.starts {
            let [got, wanted] = [&self.archive, &self.reference].map(|side| side.starts);
            return Err(format!("the archive gives the starts {got:?}, the reference {wanted:?}"));
        }
        if self.archive.written != self.reference.written {
            let [got, wanted] = [&self.archive, &self.reference].map(|side| side.written);
            return Err(format!("the archive gives the bits {got:04X}, the reference {wanted:04X}"));
        }
        self.archive.judge(&self.noise, answer).map_err(|fault| format!("after {}, {fault}", told(answer)))?;
        self.reference.judge(&self.noise, wanted).map_err(|fault| format!("the reference, after {}: {fault}", told(wanted)))?;
        if case.job.view.is_some() {
            self.check_less(case, answer)?;
        }
        let refusal = check_why(case, &self.noise, &mut self.less.scratch)?;
        if answer.number() != 1 && refusal != answer.number() {
            return Err(format!("asked why, the archive answers {refusal}, and otherwise {}", told(answer)));
        }
        if answer.number() == 0 {
            let bytes = self.archive.out[..answer.length()].to_vec();
            self.check_laws(&case.job, &bytes, answer)?;
            if case.job.view.is_some() {
                let written = self.archive.written;
                seen.written(answer.count(), written, wrote_old(&case.job.plan, &bytes, written));
                self.laws += 1;
                seen.undone(check_undone(&case.job, &bytes, answer.steps(), &mut self.spare)?);
            }
        }
        seen.job(&case.job, answer, takes_after(&case.job, &mut self.spare));
        Ok(())
    }

    /// A put without starts, and one with starts alone, answers and leaves its buffers as the one with both did.
    fn check_less(&mut self, case: &Case, answer: Answer) -> Result<(), String> {
        let plain = self.less.call(&self.noise, case, |job, out, scratch, _, _| run_plain(job, out, scratch));
        let wanted = Answer(answer.0 & !(0xFF << 24));
        if plain != wanted || self.less.out != self.archive.out || self.less.scratch != self.archive.scratch {
            return Err(format!("lens_put answers {}, lens_put_written {}, or other buffers", told(plain), told(answer)));
        }
        let with_starts = self.less.call(&self.noise, case, |job, out, scratch, starts, _| run_starts(job, out, scratch, starts));
        let same = self.less.out == self.archive.out && self.less.scratch == self.archive.scratch;
        if with_starts != answer || !same || self.less.starts != self.archive.starts {
            return Err(format!(
                "lens_put_starts answers {}, lens_put_written {}, or other buffers",
                told(with_starts),
                told(answer)
            ));
        }
        Ok(())
    }

    /// Demand 3, the starts of a new plan and the bits of a put, of the archive's answers.
    fn check_laws(&mut self, job: &Job, bytes: &[u8], answer: Answer) -> Result<(), String> {
        let steps = answer.steps();
        match &job.view {
            Some(view) => {
                self.check_new_starts(job, bytes, answer.count())?;
                self.laws += 1;
                check_bits(&job.plan, bytes, self.archive.written)?;
                check_union(job, bytes, self.archive.written, &mut self.spare)?;
                let get = Job { plan: bytes.to_vec(), view: None, ..job.clone() };
                let (answer, list) = self.law(&get);
                if answer.number() != 0 || list != *view || answer.steps() > steps {
                    return Err(format!(
                        "the list was taken back in {steps} steps, but reading out the new plan {} gives {}, {}",
                        hex(bytes),
                        told(answer),
                        hex(&list)
                    ));
                }
            }
            None if u64::from(steps) * 48 <= u64::from(ALLOWANCE_MAX) => {
                for allowance in [steps * 48, ALLOWANCE_MAX] {
                    let put = Job { view: Some(bytes.to_vec()), allowance, ..job.clone() };
                    let (answer, plan) = self.law(&put);
                    if answer.number() != 0 || plan != job.plan {
                        return Err(format!(
                            "the unedited list {} put back under {allowance} gives {}, {}",
                            hex(bytes),
                            told(answer),
                            hex(&plan)
                        ));
                    }
                }
            }
            None => {}
        }
        Ok(())
    }

    /// The starts that a put gave are those that loading the new plan gives, and its values are found by them.
    fn check_new_starts(&mut self, job: &Job, plan: &[u8], count: usize) -> Result<(), String> {
        self.laws += 1;
        let given = Given { lent: self.archive.starts, count };
        check_values(&given, plan)?;
        match check_load(&job.sheet, plan)? {
            Ok(loaded) if loaded.numbers() == given.numbers() => Ok(()),
            Ok(loaded) => {
                Err(format!("the put gives the starts {:?}, loading the new plan {:?}", given.numbers(), loaded.numbers()))
            }
            Err(refusal) => Err(format!("the new plan {} is refused with {refusal} when it is loaded", hex(plan))),
        }
    }

    fn law(&mut self, job: &Job) -> (Answer, Vec<u8>) {
        self.laws += 1;
        let mut out = [0; PUT_OUT];
        let answer = Answer(run_plain(job, &mut out, &mut self.spare));
        (answer, out[..answer.length().min(PUT_OUT)].to_vec())
    }
}

fn told(answer: Answer) -> String {
    match answer.number() {
        0 => format!("ok {} ({} bytes, {} starts)", answer.steps(), answer.length(), answer.count()),
        number if answer.0 == u64::from(number) => format!("no {number}"),
        number => format!("no {number} (the whole answer is {:016X})", answer.0),
    }
}
