//! Plans, and their values found by their number.

use crate::raw::{self, STARTS_MAX};
use crate::Refusal;
use std::ops::Range;

/// Where the values of a plan start, that of variable 0 first.
///
/// [`Sheet::load`](crate::Sheet::load) gives them of a plan and [`Sheet::put`](crate::Sheet::put) of its new plan. They may be kept
/// beside the plan, as numbers, and made again from these. Numbers that are no starts of a plan are held too: each lookup judges them.
///
/// ```
/// use lens::{Refusal, Starts};
///
/// let starts = Starts::new(&[0, 5, 6]);
/// assert_eq!(starts.find(9, 0), Ok(0..5));
/// assert_eq!(starts.find(9, 2), Ok(6..9));
/// assert_eq!(starts.find(9, 3), Err(Refusal::VARIABLE));
/// assert_eq!(starts.find(6, 0), Err(Refusal::STARTS)); // the last is not below the plan's length
/// assert_eq!(Starts::new(&[0, 5, 5]).find(9, 0), Err(Refusal::STARTS));
/// ```
#[derive(Clone, Copy, Debug, PartialEq, Eq, Hash)]
pub struct Starts {
    count: usize,
    /// Those behind the count are 0.
    numbers: [u16; STARTS_MAX],
}

impl Starts {
    /// These numbers as starts. Of more than 16 only the first 16 are kept, and that there were more: every lookup refuses them.
    pub fn new(numbers: &[u16]) -> Starts {
        let mut starts = Starts { count: numbers.len(), numbers: [0; STARTS_MAX] };
        let kept = numbers.len().min(STARTS_MAX);
        starts.numbers[..kept].copy_from_slice(&numbers[..kept]);
        starts
    }

    /// The numbers, at most 16.
    pub fn numbers(&self) -> &[u16] {
        &self.numbers[..self.count.min(STARTS_MAX)]
    }

    /// Where the value of a variable stands in a plan of `plan_len` bytes: from its start to the next, or to the plan's end.
    ///
    /// Refused are starts that are not 1 to 16 numbers that rise from 0, all below `plan_len` ([`Refusal::STARTS`]), and then a
    /// variable not below their count ([`Refusal::VARIABLE`]).
    pub fn find(&self, plan_len: usize, variable: usize) -> Result<Range<usize>, Refusal> {
        let (mut start, mut end) = (0, 0);
        Refusal::check(raw::find(&self.numbers, self.count, plan_len, variable, &mut start, &mut end))?;
        Ok(start..end)
    }
}

/// A plan's bytes and where its values start, so that each value is found by its number.
#[derive(Clone, Copy, Debug, PartialEq, Eq)]
pub struct Plan<'a> {
    bytes: &'a [u8],
    starts: Starts,
}

impl<'a> Plan<'a> {
    /// A plan with starts that were kept beside it. Nothing is read: the values are right where the starts are those that
    /// [`Sheet::load`](crate::Sheet::load), or the put that made the plan, gave of these bytes.
    ///
    /// ```
    /// use lens::{Plan, Sheet, Starts};
    ///
    /// let sheet = Sheet::new(&[0x01, 0x02, 0x00, 0x10, 0x01]); // two values
    /// let bytes = [0x04, 0x00, 0x07, 0x01];
    /// let kept: Vec<u16> = sheet.load(&bytes)?.starts().numbers().to_vec();
    ///
    /// let plan = Plan::with_starts(&bytes, Starts::new(&kept));
    /// assert_eq!(plan.value(1), [0x01]);
    /// # Ok::<(), lens::Refusal>(())
    /// ```
    pub fn with_starts(bytes: &'a [u8], starts: Starts) -> Plan<'a> {
        Plan { bytes, starts }
    }

    pub fn bytes(&self) -> &'a [u8] {
        self.bytes
    }

    pub fn starts(&self) -> Starts {
        self.starts
    }

    /// The value of a variable: the part of the plan's own bytes from its start to the next, or to the plan's end.
    ///
    /// Where [`Starts::find`] refuses, it is the empty slice, which no value is.
    pub fn value(&self, variable: usize) -> &'a [u8] {
        self.starts.find(self.bytes.len(), variable).map_or(&[], |place| &self.bytes[place])
    }
}
