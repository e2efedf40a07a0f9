//! Why a call is refused: the node that refuses, and the way to it.

use crate::raw::{self, WhyAnswer, CHAIN_MAX};
use crate::{Buffers, Refusal, Sheet};

/// Why a get or a put is refused.
///
/// A refusal that is met in the walk is met at a node: the one whose own rule refuses, or of [`Refusal::DEPTH`] and [`Refusal::SPENT`] the one
/// that could not be entered. One from before the walk, of the allowance, the sheet, the plan or the list, has no node.
#[derive(Clone, Debug, PartialEq, Eq)]
pub struct Explanation {
    /// The refusal, the same that the get or the put gives.
    pub refusal: Refusal,
    /// The nodes from the root down to the one where it was met: each is a child of the one before it, or the root of the section that this one
    /// calls. Empty for a refusal from before the walk.
    pub chain: Vec<u8>,
    /// Of [`Refusal::CLASH`] the node that wrote the variable first; none otherwise.
    pub first: Option<u8>,
}

impl Explanation {
    /// The node where it was met.
    pub fn node(&self) -> Option<u8> {
        self.chain.last().copied()
    }

    /// That node's depth, 1 for the root and at most 49; 0 for a refusal from before the walk.
    pub fn depth(&self) -> usize {
        self.chain.len()
    }

    fn of(answer: WhyAnswer, chain: &[u8; CHAIN_MAX]) -> Option<Explanation> {
        let refusal = Refusal::check(answer.number()).err()?;
        Some(Explanation { refusal, chain: chain[..answer.depth()].to_vec(), first: answer.first() })
    }
}

impl Sheet<'_> {
    /// Why [`get`](Sheet::get) refuses; none where it succeeds.
    ///
    /// ```
    /// // The sheet puts its one variable into a list of one member; the walk has steps for two of its three nodes.
    /// let sheet = lens::Sheet::new(&[0x01, 0x01, 0x00, 0x15, 0x01, 0x02, 0x10, 0x00, 0x13]);
    /// let why = sheet.why_get(&[0x04, 0x00, 0x07], 2).unwrap();
    /// assert_eq!(why.refusal, lens::Refusal::SPENT);
    /// assert_eq!(why.chain, [0, 2]);
    /// assert_eq!(sheet.why_get(&[0x04, 0x00, 0x07], 3), None);
    /// ```
    pub fn why_get(self, plan: &[u8], allowance: u32) -> Option<Explanation> {
        Buffers::new().why_get(self, plan, allowance)
    }

    /// Why [`put`](Sheet::put) refuses; none where it succeeds.
    ///
    /// ```
    /// use lens::{Refusal, Sheet};
    ///
    /// let twice = Sheet::new(&[0x01, 0x01, 0x00, 0x16, 0x01, 0x02, 0x10, 0x00, 0x10, 0x00]); // the pair of variable 0 and variable 0
    /// let why = twice.why_put(&[0x00], &[0x05, 0x00, 0x01], 1000).unwrap();
    /// assert_eq!(why.refusal, Refusal::CLASH);
    /// assert_eq!((why.node(), why.depth(), why.chain), (Some(2), 2, vec![0, 2]));
    /// assert_eq!(why.first, Some(1));
    /// ```
    pub fn why_put(self, plan: &[u8], view: &[u8], allowance: u32) -> Option<Explanation> {
        Buffers::new().why_put(self, plan, view, allowance)
    }
}

impl Buffers {
    /// [`Sheet::why_get`] in these buffers.
    pub fn why_get(&mut self, sheet: Sheet, plan: &[u8], allowance: u32) -> Option<Explanation> {
        let mut chain = [0; CHAIN_MAX];
        let answer = raw::why_get(sheet.bytes, plan, allowance, &mut self.scratch, &mut chain);
        Explanation::of(answer, &chain)
    }

    /// [`Sheet::why_put`] in these buffers.
    pub fn why_put(&mut self, sheet: Sheet, plan: &[u8], view: &[u8], allowance: u32) -> Option<Explanation> {
        let mut chain = [0; CHAIN_MAX];
        let answer = raw::why_put(sheet.bytes, plan, view, allowance, &mut self.scratch, &mut chain);
        Explanation::of(answer, &chain)
    }
}
