//! Tools of the archive, called on both sides: each gives the same answer, and the same bytes in outputs that held the same noise.

use crate::random::Random;
use crate::setting;
use lens::raw::{Answer, SCRATCH, TEXT_OUT};
use std::fmt::Debug;

const CASES: u64 = 20_000;

/// Bytes of an output that may be lent beyond what is asked for, and bytes behind them that nobody may touch.
const MORE: usize = 64;
const GUARD: usize = 64;
/// Room for the longest output.
const ROOM: usize = TEXT_OUT + MORE + GUARD;

/// Both sides' outputs, and how often each answer came.
pub struct Both {
    noise: Vec<u8>,
    archive: Vec<u8>,
    reference: Vec<u8>,
    /// No byte of it is 0, so that a cleared one is told from one that stayed.
    scratch_noise: Vec<u8>,
    scratches: [Vec<u8>; 2],
    seen: [u64; 256],
}

impl Both {
    pub fn new() -> Both {
        let mut random = Random::new(1);
        let noise: Vec<u8> = (0..ROOM).map(|_| random.byte()).collect();
        let scratch_noise: Vec<u8> = (0..SCRATCH + 64 + GUARD).map(|_| random.byte() | 1).collect();
        let scratches = [scratch_noise.clone(), scratch_noise.clone()];
        Both { archive: noise.clone(), reference: noise.clone(), noise, scratch_noise, scratches, seen: [0; 256] }
    }

    /// A tool that writes to an output of this length: the answer, and what it gives.
    pub fn call(
        &mut self,
        out_len: usize,
        archive: impl FnOnce(&mut [u8]) -> Answer,
        reference: impl FnOnce(&mut [u8]) -> u64,
    ) -> (Answer, Vec<u8>) {
        let all = out_len + GUARD;
        let noise = &self.noise[..all];
        let (ours, theirs) = (&mut self.archive[..all], &mut self.reference[..all]);
        ours.copy_from_slice(noise);
        theirs.copy_from_slice(noise);
        let answer = archive(&mut ours[..out_len]);
        let wanted = reference(&mut theirs[..out_len]);
        assert!(answer.0 != wanted || ours == theirs, "the archive gives other bytes than the reference, after {:016X}", answer.0);
        let given = if answer.number() == 0 { answer.length() } else { 0 };
        assert!(ours[given..] == noise[given..], "bytes behind what is given changed, after {:016X}", answer.0);
        let given = ours[..given].to_vec();
        (self.same(answer, wanted), given)
    }

    /// A tool that works in a scratch of this length and has no output.
    pub fn call_in_scratch(
        &mut self,
        scratch_len: usize,
        archive: impl FnOnce(&mut [u8]) -> Answer,
        reference: impl FnOnce(&mut [u8]) -> u64,
    ) -> Answer {
        self.scratches.iter_mut().for_each(|scratch| scratch.copy_from_slice(&self.scratch_noise));
        let [ours, theirs] = &mut self.scratches;
        let answer = archive(&mut ours[..scratch_len]);
        let wanted = reference(&mut theirs[..scratch_len]);
        self.same(answer, wanted);
        let cleared = if matches!(answer.number(), 2 | 3) { 0 } else { SCRATCH };
        for scratch in &self.scratches {
            let as_told = scratch[..cleared].iter().all(|&byte| byte == 0) && scratch[cleared..] == self.scratch_noise[cleared..];
            assert!(as_told, "after {:016X} scratch is not as it is to be", answer.0);
        }
        answer
    }

    /// The answers of a tool that has no output.
    pub fn same(&mut self, answer: Answer, wanted: u64) -> Answer {
        assert!(answer.0 == wanted, "the archive answers {:016X}, the reference {wanted:016X}", answer.0);
        self.seen[usize::from(answer.number())] += 1;
        answer
    }
}

/// Checks the cases of a tool, each made from its number, of which so many are made (`LENS_CASES` and `LENS_FIRST`, as for the jobs). Each of the
/// answers `wanted` is to come.
pub fn check_cases<C: Debug>(wanted: &[u8], make: impl Fn(&mut Random) -> C, check: impl Fn(&C, &mut Both)) {
    let (first, count) = (setting("LENS_FIRST", 0), setting("LENS_CASES", CASES));
    let mut both = Both::new();
    for number in first..first + count {
        let case = make(&mut Random::new(number));
        let told = Told { number, case: &case };
        check(told.case, &mut both);
        std::mem::forget(told);
    }
    let seen: Vec<(usize, u64)> = both.seen.iter().copied().enumerate().filter(|&(_, count)| count > 0).collect();
    println!("answers, and how often each came: {seen:?}");
    if count >= CASES {
        for &answer in wanted {
            assert!(both.seen[usize::from(answer)] > 0, "the answer {answer} never came");
        }
    }
}

/// A case that is told where its check fails.
struct Told<'c, C: Debug> {
    number: u64,
    case: &'c C,
}

impl<C: Debug> Drop for Told<'_, C> {
    fn drop(&mut self) {
        eprintln!("case {} (LENS_FIRST={0} LENS_CASES=1 runs it alone): {:02X?}", self.number, self.case);
    }
}

/// The length of an output: what the tool asks for or more, now and then less.
pub fn out_len(random: &mut Random, asked: usize) -> usize {
    match random.below(100) {
        0 => random.below(asked),
        1 => asked - 1,
        2..=30 => asked + random.below(MORE + 1),
        _ => asked,
    }
}
