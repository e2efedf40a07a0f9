//! Jobs: the input of document 01's program, and what it prints.

use crate::answer::taken;
use crate::vectors::hex;
use crate::{GET_OUT, PUT_OUT, SCRATCH};

/// One call.
#[derive(Clone, Debug, PartialEq, Eq)]
pub struct Job {
    pub sheet: Vec<u8>,
    pub plan: Vec<u8>,
    /// The edited list of a put; none for a get.
    pub view: Option<Vec<u8>>,
    pub allowance: u32,
}

/// The most bytes of a program's input.
pub(crate) const LONGEST_INPUT: usize = 8192;

impl Job {
    /// A program's input taken apart, or the refusal 60 or 61.
    pub fn from_input(input: &[u8]) -> Result<Job, u8> {
        if input.len() > LONGEST_INPUT {
            return Err(61);
        }
        Job::take_apart(input).ok_or(60)
    }

    pub(crate) fn take_apart(input: &[u8]) -> Option<Job> {
        let (&kind, rest) = input.split_first()?;
        let put = Job::put(rest)?;
        match kind {
            0x47 if put.view == Some(Vec::new()) => Some(Job { view: None, ..put }),
            0x50 => Some(put),
            _ => None,
        }
    }

    /// The fields of a put taken apart.
    pub(crate) fn put(fields: &[u8]) -> Option<Job> {
        let (&[a, b, c], rest) = fields.split_first_chunk()?;
        let (sheet, rest) = counted(rest)?;
        let (plan, view) = counted(rest)?;
        let allowance = u32::from_be_bytes([0, a, b, c]);
        Some(Job { sheet: sheet.to_vec(), plan: plan.to_vec(), view: Some(view.to_vec()), allowance })
    }

    /// The program's input for this job: none where the allowance or a length does not fit its field.
    pub fn to_input(&self) -> Option<Vec<u8>> {
        let [over, a, b, c] = self.allowance.to_be_bytes();
        if over > 0 {
            return None;
        }
        let mut input = vec![if self.view.is_some() { 0x50 } else { 0x47 }, a, b, c];
        for part in [&self.sheet, &self.plan] {
            input.extend(u16::try_from(part.len()).ok()?.to_be_bytes());
            input.extend(part);
        }
        input.extend(self.view.iter().flatten());
        Some(input)
    }

    /// Runs the job on the reference.
    pub fn run(&self, out: &mut [u8], scratch: &mut [u8]) -> u64 {
        match &self.view {
            None => crate::get(&self.sheet, &self.plan, self.allowance, out, scratch),
            Some(view) => crate::put(&self.sheet, &self.plan, view, self.allowance, out, scratch),
        }
    }

    /// The least output that the job asks for.
    pub fn out_size(&self) -> usize {
        if self.view.is_some() {
            PUT_OUT
        } else {
            GET_OUT
        }
    }
}

/// Bytes behind their length, which has two bytes, and what follows them.
pub(crate) fn counted(bytes: &[u8]) -> Option<(&[u8], &[u8])> {
    let (&length, rest) = bytes.split_first_chunk()?;
    rest.split_at_checked(usize::from(u16::from_be_bytes(length)))
}

/// What the program prints for an input, without the line feed, where `run` does the job.
pub fn printed(input: &[u8], run: impl Fn(&Job, &mut [u8], &mut [u8]) -> u64) -> String {
    let job = match Job::from_input(input) {
        Ok(job) => job,
        Err(refusal) => return format!("no {refusal}"),
    };
    let mut out = vec![0; job.out_size()];
    match taken(run(&job, &mut out, &mut vec![0; SCRATCH])) {
        Ok(success) => format!("ok {} {}", success.steps, hex(&out[..success.length])),
        Err(refusal) => format!("no {refusal}"),
    }
}
