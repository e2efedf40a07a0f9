//! Random lookups of a value by its number: the starts of a plan, whole or damaged, with lengths, counts and variables of any size.

use crate::random::Random;
use lens::raw::{self, STARTS_MAX};
use std::ops::Range;

#[derive(Debug)]
pub struct Lookup {
    pub starts: [u16; STARTS_MAX],
    pub count: usize,
    pub plan_len: usize,
    pub variable: usize,
}

/// A lookup in a plan of this length whose values have these starts, or others where there are none.
pub fn lookup(random: &mut Random, starts: &[u16], plan_len: usize) -> Lookup {
    let mut starts = if starts.is_empty() || random.percent(30) { rising(random) } else { starts.to_vec() };
    let last = starts.last().map_or(0, |&last| usize::from(last));
    let mut plan_len = if last < plan_len { plan_len } else { last + random.of(1..256) };
    match random.below(16) {
        0 => starts.clear(),
        1 => starts.resize(STARTS_MAX + random.below(4), last as u16 + 1),
        2 => starts = (0..random.of(16..18) as u16).collect(),
        3 => plan_len = random.pick(&[0, last, last + 1, last + 65_536, 65_535, 65_536, 1 << 32, usize::MAX]),
        4..=7 => damage(random, &mut starts, plan_len),
        _ => {}
    }
    let count = starts.len();
    let mut lent = [(); STARTS_MAX].map(|()| random.next() as u16);
    let kept = count.min(STARTS_MAX);
    lent[..kept].copy_from_slice(&starts[..kept]);
    let count = if random.percent(4) { far(random, count) } else { count };
    Lookup { starts: lent, count, plan_len, variable: variable(random, count.min(STARTS_MAX)) }
}

/// Up to 16 numbers that rise from 0.
fn rising(random: &mut Random) -> Vec<u16> {
    let most = random.pick(&[2, 4, 256, 4096]);
    let mut next = 0;
    (0..random.of(1..STARTS_MAX + 1))
        .map(|_| {
            let start = next;
            next += random.of(1..most);
            start as u16
        })
        .collect()
}

/// Damages one or two of the starts, of which there are some.
fn damage(random: &mut Random, starts: &mut [u16], plan_len: usize) {
    let at = random.below(starts.len());
    let end = plan_len as u16;
    match random.below(9) {
        0 => starts[0] = random.of(1..4) as u16,
        1 => starts[0] = u16::MAX,
        2 => starts[at] = starts[at.saturating_sub(1)],
        3 => starts[at] = starts[at].wrapping_sub(1),
        4 => starts.swap(at, random.below(starts.len())),
        5 => starts[starts.len() - 1] = end,
        6 => starts[starts.len() - 1] = end.wrapping_sub(1),
        7 => starts[at] = random.next() as u16,
        _ => starts[at] = starts[at].wrapping_add(256),
    }
}

/// Mostly one below the count, now and then one at it or far above.
fn variable(random: &mut Random, count: usize) -> usize {
    match random.below(12) {
        0 => count,
        1 => count + random.below(20),
        2 => {
            let low = random.below(STARTS_MAX);
            far(random, low)
        }
        _ => random.below(count.max(1)),
    }
}

/// A large number, some with the same low bits.
fn far(random: &mut Random, low: usize) -> usize {
    random.pick(&[low + (1 << 8), low + (1 << 16), low + (1 << 32), low + (1 << 63), usize::MAX - low, usize::MAX])
}

impl Lookup {
    /// Where the value stands, or the number of the refusal, on which archive and reference agree.
    pub fn check(&self) -> Result<Result<Range<usize>, u8>, String> {
        let (found, wanted) = (self.archive()?, self.reference());
        if found == wanted {
            Ok(found)
        } else {
            Err(format!("{self:?}: the archive gives {found:?}, the reference {wanted:?}"))
        }
    }

    /// What the archive gives. A refusal leaves the two numbers as they were.
    fn archive(&self) -> Result<Result<Range<usize>, u8>, String> {
        let before = [0x5A5A_5A5A, 0xA5A5_A5A5];
        let [mut start, mut end] = before;
        match raw::find(&self.starts, self.count, self.plan_len, self.variable, &mut start, &mut end) {
            0 => Ok(Ok(start..end)),
            refusal if [start, end] == before => Ok(Err(refusal)),
            refusal => Err(format!("{self:?}: after refusal {refusal} start and end are {start} and {end}")),
        }
    }

    /// What the reference gives. It is lent the numbers that count, or 17 that rise where there are more than 16.
    fn reference(&self) -> Result<Range<usize>, u8> {
        let more: [u16; STARTS_MAX + 1] = std::array::from_fn(|start| start as u16);
        reference::find(self.starts.get(..self.count).unwrap_or(&more), self.plan_len, self.variable)
    }
}
