//! Plans: their values read from the front, and found by where they start.

use crate::value::{self, Flaw};
use crate::{Refusal, STARTS_MAX};
use std::ops::Range;

/// Reads the `k` values of a plan, front to back, and hands each on with its start.
pub fn read(k: u8, plan: &[u8], mut take: impl FnMut(usize, &[u8])) -> Result<(), Refusal> {
    let mut start = 0;
    for _ in 0..k {
        let rest = &plan[start..];
        if rest.is_empty() {
            return Err(22);
        }
        let length = value::read(rest).map_err(|flaw| match flaw {
            Flaw::Malformed => 20,
            Flaw::TooLong => 21,
        })?;
        take(start, &rest[..length]);
        start += length;
    }
    if start == plan.len() {
        Ok(())
    } else {
        Err(22)
    }
}

/// The value of a variable by a reading from the front, which reads every value before it too; none where the plan has no such value.
pub fn from_front(plan: &[u8], variable: usize) -> Option<&[u8]> {
    let mut rest = plan;
    for _ in 0..variable {
        rest = &rest[value::read(rest).ok()?..];
    }
    Some(&rest[..value::read(rest).ok()?])
}

/// Where the value of a variable stands in a plan of this length whose values have these starts.
pub fn find(starts: &[u16], plan_len: usize, variable: usize) -> Result<Range<usize>, Refusal> {
    let numbered = (1..=STARTS_MAX).contains(&starts.len());
    let rising = starts.windows(2).all(|two| two[0] < two[1]);
    let below = starts.iter().all(|&start| usize::from(start) < plan_len);
    if !(numbered && starts[0] == 0 && rising && below) {
        return Err(24);
    }
    if variable >= starts.len() {
        return Err(23);
    }
    let end = starts.get(variable + 1).map_or(plan_len, |&next| usize::from(next));
    Ok(usize::from(starts[variable])..end)
}

/// The value of a variable as the part of the plan's own bytes; the empty part where [`find`] refuses.
pub fn part<'p>(starts: &[u16], plan: &'p [u8], variable: usize) -> &'p [u8] {
    find(starts, plan.len(), variable).map_or(&[], |place| &plan[place])
}
