//! How often each answer came.

use crate::sheets;
use crate::undone::Undone;
use crate::values::has_price;
use lens::raw::Answer;
use lens::Refusal;
use reference::job::Job;
use std::fmt;

/// Calls by the number of their answer.
pub struct Seen {
    /// Gets and puts.
    jobs: [[u64; 2]; 256],
    /// The same of jobs whose sheet has a 1C.
    each: [[u64; 2]; 256],
    /// The same of jobs with a number of four bytes: a 1D of the sheet, or an 06 of the plan or the list.
    wide: [[u64; 2]; 256],
    /// Puts that got defaults, of sheets with one that names a variable.
    switches: [u64; 256],
    loads: [u64; 256],
    lookups: [u64; 256],
    written: Written,
    edits: Edits,
}

/// Puts that succeeded, by the variables that they wrote.
#[derive(Default)]
struct Written {
    none: u64,
    some: u64,
    all: u64,
    /// One of them with its old value.
    old: u64,
}

/// Puts that changed a plan that reads out, by what became of the edit when it was taken back.
#[derive(Default)]
struct Edits {
    /// Sheets without records 17, 18 and 1C.
    straight: u64,
    /// Others whose old plan came back in as many steps.
    back: u64,
    /// Others.
    lost: u64,
}

impl Default for Seen {
    fn default() -> Seen {
        Seen {
            jobs: [[0; 2]; 256],
            each: [[0; 2]; 256],
            wide: [[0; 2]; 256],
            switches: [0; 256],
            loads: [0; 256],
            lookups: [0; 256],
            written: Written::default(),
            edits: Edits::default(),
        }
    }
}

impl Seen {
    pub fn job(&mut self, job: &Job, answer: Answer, takes_after: bool) {
        let (number, way) = (usize::from(answer.number()), usize::from(job.view.is_some()));
        self.jobs[number][way] += 1;
        self.each[number][way] += u64::from(sheets::has(&job.sheet, 0x1C));
        let values = [Some(&job.plan), job.view.as_ref()];
        let wide = sheets::has(&job.sheet, 0x1D) || values.into_iter().flatten().any(|bytes| has_price(bytes));
        self.wide[number][way] += u64::from(wide);
        let walked = number == 0 || number >= 40;
        self.switches[number] += u64::from(walked && takes_after);
    }

    pub fn load(&mut self, number: u8) {
        self.loads[usize::from(number)] += 1;
    }

    pub fn lookup(&mut self, number: u8) {
        self.lookups[usize::from(number)] += 1;
    }

    /// A put that succeeded, of a plan of so many variables, that wrote those of the bits.
    pub fn written(&mut self, variables: usize, bits: u16, old: bool) {
        let count = match bits.count_ones() as usize {
            0 => &mut self.written.none,
            written if written == variables => &mut self.written.all,
            _ => &mut self.written.some,
        };
        *count += 1;
        self.written.old += u64::from(old);
    }

    /// A put that succeeded, taken back; none where its old plan does not read out.
    pub fn undone(&mut self, undone: Option<Undone>) {
        match undone {
            Some(Undone { straight: true, changed: true, .. }) => self.edits.straight += 1,
            Some(Undone { changed: true, back: true, .. }) => self.edits.back += 1,
            Some(Undone { changed: true, .. }) => self.edits.lost += 1,
            _ => {}
        }
    }

    /// Every refusal came of each function that has it, also with numbers of four bytes; those that are not seldom where defaults are got
    /// came there too; and successes were no rarity. (Refusals from 60 on are those of programs and tools, and no job's.)
    pub fn assert_wide(&self) {
        for refusal in Refusal::ALL.iter().filter(|refusal| refusal.number() < 60) {
            let number = usize::from(refusal.number());
            let ([gets, puts], [wide_gets, wide_puts]) = (self.jobs[number], self.wide[number]);
            let came = match number {
                14 => gets > 0 && puts > 0 && self.loads[number] > 0,
                10..=22 => wide_gets > 0 && wide_puts > 0 && self.loads[number] > 0,
                23 | 24 => self.lookups[number] > 0,
                30..=32 | 50..=54 => wide_puts > 0,
                _ => wide_gets > 0 && wide_puts > 0,
            };
            assert!(came, "{refusal:?} never came: {self}");
            let seldom = !matches!(number, 40..=44 | 50 | 51 | 53 | 54);
            assert!(seldom || self.switches[number] > 0, "{refusal:?} never came with defaults: {self}");
        }
        let columns = |counts: &[[u64; 2]; 256]| [0, 1].map(|way| counts.map(|numbers| numbers[way]));
        let all: u64 = self.jobs.iter().flatten().sum();
        let each: u64 = self.each.iter().flatten().sum();
        let wide: u64 = self.wide.iter().flatten().sum();
        let switches: u64 = self.switches.iter().sum();
        let [gets, puts] = columns(&self.jobs);
        let [each_gets, each_puts] = columns(&self.each);
        let [wide_gets, wide_puts] = columns(&self.wide);
        let Written { none, some, all: whole, old } = self.written;
        assert!([none, some, whole, old].iter().all(|&count| count > 1000), "too few of some bits: {self}");
        let Edits { straight, back, lost } = self.edits;
        assert!([straight, back, lost].iter().all(|&count| count > 1000), "too few of some edits: {self}");
        for (counts, total, of) in [
            (gets, all, "gets"),
            (puts, all, "puts"),
            (each_gets, each, "gets with a 1C"),
            (each_puts, each, "puts with a 1C"),
            (wide_gets, wide, "gets with a number of four bytes"),
            (wide_puts, wide, "puts with a number of four bytes"),
            (self.switches, switches, "puts with defaults that name a variable"),
            (self.loads, all, "loads"),
            (self.lookups, all, "lookups"),
        ] {
            assert!(counts[0] > total / 10, "too few successes of {of}: {self}");
        }
    }
}

impl fmt::Display for Seen {
    fn fmt(&self, f: &mut fmt::Formatter) -> fmt::Result {
        let heads = ["answer", "gets", "puts", "1C, gets", "puts", "06, gets", "puts", "17, puts", "loads", "lookups"];
        writeln!(f, "{}", heads.map(|head| format!("{head:>8}")).join(" "))?;
        for number in 0..256 {
            let ways = [self.jobs, self.each, self.wide].map(|counts| counts[number]);
            let counts = [ways.as_flattened(), &[self.switches[number], self.loads[number], self.lookups[number]]].concat();
            if counts.iter().any(|&count| count > 0) {
                let answer = if number == 0 { "ok".to_string() } else { format!("no {number}") };
                let counts: Vec<String> = counts.iter().map(|count| format!("{count:>8}")).collect();
                writeln!(f, "{answer:>8} {}", counts.join(" "))?;
            }
        }
        let Written { none, some, all, old } = self.written;
        writeln!(f, "puts that wrote no variable {none}, some {some}, all {all}; one of them with its old value {old}")?;
        let Edits { straight, back, lost } = self.edits;
        writeln!(
            f,
            "edits taken back of sheets without 17, 18 and 1C {straight}; of others {back}, and {lost} that did not come back"
        )
    }
}
