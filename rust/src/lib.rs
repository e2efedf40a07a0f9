//! One sheet of rules for a venue, read both ways: forwards it gives the list from the plan, backwards the new plan from the old plan
//! and the edited list. The values of a plan are found by their number, and where a reading is refused, it is told at which node and why.
//! Tools work on the sheet itself: [`Sheet::numbered`] writes it with one numbering, [`Sheet::join`] makes one of two,
//! [`Sheet::growth`] says how much longer its list can get, [`Sheet::check_types`] whether its parts fit. [`Sheet::accepts`] judges a new plan
//! that was made elsewhere. [`json`] turns values into JSON and back. [`Sheet::parse`] reads a sheet that is written as text, and a [`Sheet`] as
//! a string is its text.
//!
//! The work is done by an archive that is proved to follow the definitions of sheets, whose manual is `docs/SHEETS.md`; this crate lends it
//! its buffers and turns its answers into Rust. Five laws are proved of those answers:
//!
//! - after a [`put`](Sheet::put) that succeeds, the [`get`](Sheet::get) of the new plan, under the same allowance, gives exactly the
//!   list, in no more steps;
//! - after a get of n steps, the put of its list under an allowance of 48 × n or more (up to 1,000,000) gives the old plan;
//! - a value found by its number in a plan that [`load`](Sheet::load) gave ([`Plan::value`]), or in the new plan of a put as it was given
//!   ([`Put::value`]), is the one that a reading of the plan from the front gives; a plan made with other starts
//!   ([`Plan::with_starts`]) has the part that these name;
//! - a variable that a put did not write ([`Put::written`]) has its old bytes in the new plan;
//! - under a sheet without records 17, 18 and 1C an edit can be taken back ([`Sheet::undoes`]): the list that was read out before it, put
//!   into the new plan under the edit's allowance, gives the old plan in as many steps.
//!
//! A sheet that joins two lists, written as text; the edit of a joined list, and the new plan:
//!
//! ```
//! use lens::Sheet;
//!
//! let text = "
//!     plan first, second
//!     list = join(first, second)
//!
//!     section join(block, tail) =
//!       case block of
//!         []            -> tail
//!         [seat | rest] -> [seat | join(rest, tail)] with members
//!           default seat = false, rest = []
//!       end
//! ";
//! let bytes = Sheet::parse(text)?;
//! let join = Sheet::new(&bytes);
//! let old = [0x03, 0x04, 0, 1, 0x02, /* [1] */ 0x03, 0x04, 0, 2, 0x02 /* [2] */];
//! let got = join.get(&old, 1000)?;
//! assert_eq!(got.view, [0x03, 0x04, 0, 1, 0x03, 0x04, 0, 2, 0x02]); // [1, 2]
//!
//! let edited = [0x03, 0x04, 0, 8, 0x03, 0x04, 0, 9, 0x02]; // [8, 9]
//! let new = join.put(&old, &edited, 1000)?;
//! assert_eq!(new.plan, [0x03, 0x04, 0, 8, 0x02, 0x03, 0x04, 0, 9, 0x02]); // [8] [9]
//!
//! assert_eq!(join.get(&new.plan, 1000)?.view, edited);
//! assert_eq!(join.put(&old, &got.view, 48 * got.steps)?.plan, old);
//!
//! // The second list of each plan, without reading the first.
//! assert_eq!(join.load(&old)?.value(1), [0x03, 0x04, 0, 2, 0x02]);
//! assert_eq!(new.value(1), [0x03, 0x04, 0, 9, 0x02]);
//! assert!(new.written(0) && new.written(1)); // both lists took a part of the edited one
//! # Ok::<(), Box<dyn std::error::Error>>(())
//! ```

mod checker;
mod details;
mod growth;
mod join;
pub mod json;
mod numbering;
mod plan;
pub mod raw;
mod refusal;
mod text;
mod types;
mod undo;
mod why;

pub use plan::{Plan, Starts};
pub use refusal::{NodeRefusal, Refusal};
pub use text::TextRefusal;
pub use types::Type;
pub use why::Explanation;

/// The largest allowance; the least is 1.
pub const ALLOWANCE_MAX: u32 = 1_000_000;

/// A sheet's bytes. They are judged with each call.
///
/// ```
/// use lens::{Refusal, Sheet};
///
/// assert_eq!(Sheet::new(&[]).get(&[0x00], 1000), Err(Refusal::SHEET_EMPTY));
/// ```
#[derive(Clone, Copy, Debug, PartialEq, Eq)]
pub struct Sheet<'a> {
    bytes: &'a [u8],
}

/// A list read out of a plan.
#[derive(Clone, Debug, PartialEq, Eq)]
pub struct Got {
    /// The list, one value.
    pub view: Vec<u8>,
    /// The nodes entered.
    pub steps: u32,
}

/// A plan with a list read back into it.
#[derive(Clone, Debug, PartialEq, Eq)]
pub struct Put {
    /// The new plan, as many values as the old one.
    pub plan: Vec<u8>,
    /// Where its values start.
    pub starts: Starts,
    /// Which variables took a view, as [`Put::written`] tells: bit i for variable i.
    pub bits: u16,
    /// The nodes entered.
    pub steps: u32,
}

/// Bit i of a put's bits, of which there are 16.
fn is_set(bits: u16, variable: usize) -> bool {
    variable < 16 && bits >> variable & 1 == 1
}

impl Put {
    /// Whether the list sent back wrote a variable, also where it wrote the old value. A variable that it did not write has its old bytes
    /// in the new plan, so that a screen that shows the plan is drawn anew where this says yes. Of two puts in a row it is the variables
    /// that either wrote: `first.bits | second.bits`.
    ///
    /// ```
    /// let sheet = lens::Sheet::new(&[0x01, 0x03, 0x00, 0x16, 0x01, 0x02, 0x10, 0x00, 0x10, 0x02]); // variables 0 and 2 of three
    /// let put = sheet.put(&[0x00, 0x00, 0x00], &[0x05, 0x01, 0x00], 1000)?; // True for variable 0, False for variable 2
    /// assert_eq!(put.plan, [0x01, 0x00, 0x00]);
    /// assert_eq!([0, 1, 2].map(|variable| put.written(variable)), [true, false, true]);
    /// assert_eq!(put.bits, 0b101);
    /// # Ok::<(), lens::Refusal>(())
    /// ```
    pub fn written(&self, variable: usize) -> bool {
        is_set(self.bits, variable)
    }

    /// The new plan's value of a variable, as [`Plan::value`].
    pub fn value(&self, variable: usize) -> &[u8] {
        Plan::with_starts(&self.plan, self.starts).value(variable)
    }
}

impl<'a> Sheet<'a> {
    pub const fn new(bytes: &'a [u8]) -> Sheet<'a> {
        Sheet { bytes }
    }

    pub fn bytes(self) -> &'a [u8] {
        self.bytes
    }

    /// The list that the sheet makes of `plan`, in at most `allowance` steps.
    ///
    /// ```
    /// // The sheet puts its one variable into a list of one member.
    /// let sheet = lens::Sheet::new(&[0x01, 0x01, 0x00, 0x15, 0x01, 0x02, 0x10, 0x00, 0x13]);
    /// let got = sheet.get(&[0x04, 0x00, 0x07], 1000)?;
    /// assert_eq!(got.view, [0x03, 0x04, 0x00, 0x07, 0x02]);
    /// assert_eq!(got.steps, 3);
    /// # Ok::<(), lens::Refusal>(())
    /// ```
    pub fn get(self, plan: &[u8], allowance: u32) -> Result<Got, Refusal> {
        let mut buffers = Buffers::new();
        let got = buffers.get(self, plan, allowance)?;
        Ok(Got { view: got.view.to_vec(), steps: got.steps })
    }

    /// The plan that the edited list `view` makes of the old `plan`, in at most `allowance` steps.
    ///
    /// ```
    /// use lens::{Refusal, Sheet};
    ///
    /// let sheet = Sheet::new(&[0x01, 0x01, 0x00, 0x15, 0x01, 0x02, 0x10, 0x00, 0x13]);
    /// let old = [0x04, 0x00, 0x07];
    /// assert_eq!(sheet.put(&old, &[0x03, 0x01, 0x02], 1000)?.plan, [0x01]);
    /// assert_eq!(sheet.put(&old, &[0x03, 0x01, 0x03, 0x01, 0x02], 1000), Err(Refusal::CONSTANT));
    /// # Ok::<(), lens::Refusal>(())
    /// ```
    pub fn put(self, plan: &[u8], view: &[u8], allowance: u32) -> Result<Put, Refusal> {
        let mut buffers = Buffers::new();
        let put = buffers.put(self, plan, view, allowance)?;
        Ok(Put { plan: put.plan.bytes().to_vec(), starts: put.plan.starts(), bits: put.bits, steps: put.steps })
    }

    /// Reads `plan` once for where its values start, so that each is then found by its number.
    ///
    /// ```
    /// use lens::{Refusal, Sheet};
    ///
    /// let sheet = Sheet::new(&[0x01, 0x03, 0x00, 0x10, 0x01]); // three values
    /// let plan = sheet.load(&[0x03, 0x04, 0x00, 0x07, 0x02, 0x01, 0x04, 0x00, 0x09])?; // [7], True, 9
    /// assert_eq!(plan.value(2), [0x04, 0x00, 0x09]);
    /// assert_eq!(plan.starts().numbers(), [0, 5, 6]);
    /// assert_eq!(sheet.load(&[0x01]), Err(Refusal::PLAN_COUNT));
    /// # Ok::<(), lens::Refusal>(())
    /// ```
    pub fn load<'p>(self, plan: &'p [u8]) -> Result<Plan<'p>, Refusal> {
        let mut starts = [0; raw::STARTS_MAX];
        let answer = raw::load(self.bytes, plan, &mut starts);
        Refusal::check(answer.number())?;
        Ok(Plan::with_starts(plan, Starts::new(&starts[..answer.count()])))
    }
}

/// Output and scratch, to lend to one call after another without allocating anew.
///
/// ```
/// use lens::{Buffers, Sheet};
///
/// let sheet = Sheet::new(&[0x01, 0x01, 0x00, 0x1B, 0x01, 0x00, 0x64, 0x10, 0x00]); // adds 100
/// let mut buffers = Buffers::new();
/// for number in 0..10 {
///     let got = buffers.get(sheet, &[0x04, 0x00, number], 1000)?;
///     assert_eq!(got.view, [0x04, 0x00, number + 100]);
///     let put = buffers.put(sheet, &[0x04, 0x00, number], &[0x04, 0x00, 100], 1000)?;
///     assert_eq!(put.plan.bytes(), [0x04, 0x00, 0x00]);
///     assert_eq!(put.plan.value(0), [0x04, 0x00, 0x00]);
/// }
/// # Ok::<(), lens::Refusal>(())
/// ```
pub struct Buffers {
    out: Box<[u8]>,
    scratch: Box<[u8]>,
}

/// A list read out of a plan, within the buffers lent.
#[derive(Clone, Copy, Debug, PartialEq, Eq)]
pub struct GotRef<'b> {
    /// The list, one value.
    pub view: &'b [u8],
    /// The nodes entered.
    pub steps: u32,
}

/// A plan with a list read back into it, within the buffers lent.
#[derive(Clone, Copy, Debug, PartialEq, Eq)]
pub struct PutRef<'b> {
    /// The new plan, as many values as the old one.
    pub plan: Plan<'b>,
    /// Which variables took a view, as [`PutRef::written`] tells: bit i for variable i.
    pub bits: u16,
    /// The nodes entered.
    pub steps: u32,
}

impl PutRef<'_> {
    /// Whether the list sent back wrote a variable, as [`Put::written`].
    pub fn written(&self, variable: usize) -> bool {
        is_set(self.bits, variable)
    }
}

impl Buffers {
    pub fn new() -> Buffers {
        Buffers { out: vec![0; raw::PUT_OUT].into(), scratch: vec![0; raw::SCRATCH].into() }
    }

    /// [`Sheet::get`] in these buffers.
    pub fn get(&mut self, sheet: Sheet, plan: &[u8], allowance: u32) -> Result<GotRef<'_>, Refusal> {
        let answer = raw::get(sheet.bytes, plan, allowance, &mut self.out, &mut self.scratch);
        Refusal::check(answer.number())?;
        Ok(GotRef { view: &self.out[..answer.length()], steps: answer.steps() })
    }

    /// [`Sheet::put`] in these buffers.
    pub fn put(&mut self, sheet: Sheet, plan: &[u8], view: &[u8], allowance: u32) -> Result<PutRef<'_>, Refusal> {
        let (mut starts, mut bits) = ([0; raw::STARTS_MAX], 0);
        let (out, scratch) = (&mut self.out, &mut self.scratch);
        let answer = raw::put_written(sheet.bytes, plan, view, allowance, out, scratch, &mut starts, &mut bits);
        Refusal::check(answer.number())?;
        let plan = Plan::with_starts(&self.out[..answer.length()], Starts::new(&starts[..answer.count()]));
        Ok(PutRef { plan, bits, steps: answer.steps() })
    }
}

impl Default for Buffers {
    fn default() -> Buffers {
        Buffers::new()
    }
}
