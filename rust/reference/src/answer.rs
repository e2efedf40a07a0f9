//! Answers: one number, made and taken apart.
//!
//! Readings of a plan or a list answer with a [`Success`]; tools that walk no plan, and the checker of plans, tell one number.

use crate::Refusal;

/// What an answer holds beside its number, which is then 0.
#[derive(Clone, Copy, Debug, Default, PartialEq, Eq)]
pub struct Success {
    /// The bytes at the front of the output that are the list or the plan.
    pub length: usize,
    /// The starts given.
    pub count: usize,
    /// The nodes entered.
    pub steps: u32,
}

/// The refusal in the low 8 bits (0: success), the length in the next 16, the count in the next 8, the steps in the upper 32.
pub fn made(result: Result<Success, Refusal>) -> u64 {
    match result {
        Ok(Success { length, count, steps }) => (length as u64) << 8 | (count as u64) << 24 | u64::from(steps) << 32,
        Err(refusal) => u64::from(refusal),
    }
}

/// An answer taken apart.
pub fn taken(answer: u64) -> Result<Success, Refusal> {
    match answer as u8 {
        0 => Ok(Success {
            length: usize::from((answer >> 8) as u16),
            count: usize::from((answer >> 24) as u8),
            steps: (answer >> 32) as u32,
        }),
        refusal => Err(refusal),
    }
}

/// A refusal, and the node that it names; only 81 and 82 name one.
#[derive(Clone, Copy, Debug, PartialEq, Eq)]
pub struct NodeRefusal {
    pub refusal: Refusal,
    pub node: Option<u8>,
}

impl From<Refusal> for NodeRefusal {
    fn from(refusal: Refusal) -> NodeRefusal {
        NodeRefusal { refusal, node: None }
    }
}

/// A tool's answer: the refusal in the low 8 bits (0: success), in the next 16 what a success tells or the node of a refusal.
pub fn packed(result: Result<usize, NodeRefusal>) -> u64 {
    match result {
        Ok(told) => (told as u64) << 8,
        Err(NodeRefusal { refusal, node }) => u64::from(refusal) | u64::from(node.unwrap_or(0)) << 8,
    }
}

/// A tool's answer taken apart.
pub fn unpacked(answer: u64) -> Result<usize, NodeRefusal> {
    let told = (answer >> 8) as u16;
    match answer as u8 {
        0 => Ok(told.into()),
        refusal @ (81 | 82) => Err(NodeRefusal { refusal, node: Some(told as u8) }),
        refusal => Err(refusal.into()),
    }
}

/// Why a text is no sheet.
#[derive(Clone, Copy, Debug, PartialEq, Eq)]
pub struct Fault {
    /// 90 to 94; or 1, of the output, and then the others are 0.
    pub refusal: Refusal,
    /// How many bytes of the text stand before it.
    pub place: usize,
    /// What was expected, or what is wrong.
    pub detail: u8,
}
