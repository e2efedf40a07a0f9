//! Refusals.

use crate::raw::Answer;
use std::error::Error;
use std::fmt;

/// Why a call gave nothing: one number of the tables in `docs/SHEETS.md` and `docs/TOOLS.md`.
///
/// Its [`name`](Refusal::name) is that of the constant here (and, behind `LENS_`, in `include/lens.h`); as text it is a sentence that
/// says what to do.
///
/// ```
/// use lens::{Refusal, Sheet};
///
/// let sheet = Sheet::new(&[0x01, 0x01, 0x00, 0x15, 0x01, 0x02, 0x10, 0x00, 0x13]);
/// let refusal = sheet.get(&[0x04, 0x00, 0x07], 2).unwrap_err();
/// assert_eq!(refusal, Refusal::SPENT);
/// assert_eq!(refusal.number(), 41);
/// assert_eq!(refusal.name(), "SPENT");
/// assert_eq!(refusal.to_string(), "the allowance is spent before the walk ends: allow more steps (refusal 41)");
/// ```
#[derive(Clone, Copy, PartialEq, Eq, Hash, PartialOrd, Ord)]
pub struct Refusal {
    number: u8,
}

macro_rules! refusals {
    ($($number:literal $name:ident $sentence:literal)*) => {
        impl Refusal {
            $(#[doc = concat!($sentence, ".")] pub const $name: Refusal = Refusal { number: $number };)*

            /// Every refusal, by number.
            pub const ALL: &'static [Refusal] = &[$(Refusal::$name),*];

            /// The refusal's name.
            pub fn name(self) -> &'static str {
                match self.number {
                    $($number => stringify!($name),)*
                    _ => "UNKNOWN",
                }
            }

            fn sentence(self) -> &'static str {
                match self.number {
                    $($number => $sentence,)*
                    _ => "the archive gives a refusal that this crate does not know: build both from one version",
                }
            }
        }
    };
}

refusals! {
    // make-tables: refusals
    1 OUTPUT_SMALL "the output lent is under 256 bytes (a list, a value), 4,096 (a plan), 2,048 (a sheet, JSON) or 16,384 (a sheet's text): lend a larger one"
    2 SCRATCH_SMALL "the scratch lent is under 65,536 bytes: lend more"
    3 ALLOWANCE_RANGE "the allowance is 0 or over 1,000,000: allow 1 to 1,000,000 steps"
    10 SHEET_KIND "a record of the sheet has an unknown kind or stands out of its place: send one 01, then the 20s, then the nodes"
    11 SHEET_CUT "the sheet ends within a record: send it whole"
    12 SHEET_FULL "the sheet has a 9th section or a 201st node: make it smaller"
    13 SHEET_RANGE "k, a node, section, test or the number of a 1D is out of range: k is 1 to 16, a test 0 to 6, a 1D over 65,535; nodes name later ones"
    14 SHEET_EMPTY "the sheet has no byte or no node: send a sheet with a node"
    20 PLAN_MALFORMED "a value of the plan is cut or malformed: send it whole, with known kinds, lists as rests, an 06 only over 65,535"
    21 PLAN_LONG "a value of the plan has over 256 bytes: make it shorter"
    22 PLAN_COUNT "the plan has too few values, or bytes behind them: send as many values as the sheet's k says, and nothing else"
    23 VARIABLE "the variable's number is not below the count of the starts, or the sheet's k: ask for one that the plan has"
    24 STARTS "the starts are not 1 to 16 numbers that rise from 0, all below the plan's length: load the plan anew"
    30 VIEW_MALFORMED "the list sent back, or the value for JSON, is cut or malformed: send it whole, with known kinds, lists as rests, an 06 only over 65,535"
    31 VIEW_LONG "the list sent back, or the value for JSON, has over 256 bytes: make it shorter"
    32 VIEW_COUNT "the list sent back, or the value for JSON, is not exactly one value: send one, with nothing behind it"
    40 DEPTH "the walk goes deeper than 48 nodes: shorten the list, or nest the sheet less"
    41 SPENT "the allowance is spent before the walk ends: allow more steps"
    42 SCOPE "the sheet names a variable that is not in scope: correct the sheet"
    43 VALUE_KIND "a value taken apart, added to or used as a rest is of the wrong kind: correct the plan or the sheet, or undo an edit that a default uses"
    44 VALUE_LONG "a value made on the way has over 256 bytes: shorten the plan's values or the list"
    45 SUM "a sum is over 65,535: lower the number that is added to"
    46 TEST "a branch gives what its own test refuses: correct the test or the branch in the sheet"
    50 CONSTANT "the list sent back changes what the sheet fixes: put the fixed part back as it was"
    51 VIEW_KIND "a part of the list sent back is of another kind than the sheet gives: keep the kinds as they were read out"
    52 VIEW_BELOW "a number of the list sent back is below the amount that the sheet adds: raise it to that amount or more"
    53 NO_BRANCH "the list sent back passes the test of neither branch of a case: undo that edit, or give the sheet a test that allows it"
    54 CLASH "two places of the list sent back that come from one variable differ: edit both alike"
    70 JSON_MALFORMED "the text is not JSON for a value, or a number in it is over 4,294,967,295: send false, true, plain numbers, arrays, objects of a, then b"
    71 JSON_DEPTH "arrays and objects nest 49 deep: nest them at most 48 deep"
    72 JSON_LONG "the value of the text has over 256 bytes: make it shorter"
    80 TYPES_MALFORMED "a type is malformed or has over 256 bytes, or the types are too few or too many: send one for each place that the sheet has"
    81 NODE_TWICE "a node of the sheet is used twice as a child or a root: give each use a node of its own"
    82 NODE_TYPE "a node's type does not go with its kind, its scope, its place or its children's types: correct the node or the type"
    83 SHEETS_DIFFER "the two sheets have another k: join sheets of one plan"
    84 JOIN_FULL "both sheets together, with the pair, have over 200 nodes or 8 sections: make one of them smaller"
    85 NEW_PLAN "the new plan is malformed, has a value of over 256 bytes, or another count of values than k: send k values, whole and not too long"
    87 OTHER_KIND "the sheet has a node of another kind than 10 to 16, 1B and 1D: ask of a sheet without cases, splits, calls and eaches"
    88 GROWTH_LARGE "the variable counts over 256 times in the list, so that no plan reads out: use it less often in the sheet"
    90 TEXT_TOKEN "another token is expected in the text, or the text ends too early: write what is expected there"
    91 TEXT_NAME "a name in the text stands for nothing: no variable is in scope, or no section is written, by that name: correct the name"
    92 TEXT_TAKEN "a name in the text is given twice, in one scope or to two sections: choose another name"
    93 TEXT_NUMBER "a number in the text has a 0 in front or a letter behind it, or is too large: write it in decimal, within its limit"
    94 TEXT_FULL "the text has a 17th value of the plan, a 9th section or a 201st node: make the sheet smaller"
    // make-tables: end
}

impl Refusal {
    /// The refusal of this number as an error; 0 is success.
    pub(crate) fn check(number: u8) -> Result<(), Refusal> {
        match number {
            0 => Ok(()),
            _ => Err(Refusal { number }),
        }
    }

    /// The refusal's number.
    pub fn number(self) -> u8 {
        self.number
    }
}

impl fmt::Display for Refusal {
    fn fmt(&self, f: &mut fmt::Formatter) -> fmt::Result {
        write!(f, "{} (refusal {})", self.sentence(), self.number)
    }
}

impl fmt::Debug for Refusal {
    fn fmt(&self, f: &mut fmt::Formatter) -> fmt::Result {
        write!(f, "Refusal {} {}", self.number, self.name())
    }
}

impl Error for Refusal {}

/// A tool's refusal, and the node of the sheet that it names.
///
/// ```
/// use lens::{Refusal, Sheet};
///
/// // A pair whose halves are one node.
/// let refused = Sheet::new(&[0x01, 0x01, 0x00, 0x16, 0x01, 0x01, 0x10, 0x00]).numbered().unwrap_err();
/// assert_eq!((refused.refusal, refused.node), (Refusal::NODE_TWICE, Some(1)));
/// assert_eq!(
///     refused.to_string(),
///     "node 1: a node of the sheet is used twice as a child or a root: give each use a node of its own (refusal 81)"
/// );
/// ```
#[derive(Clone, Copy, Debug, PartialEq, Eq, Hash)]
pub struct NodeRefusal {
    pub refusal: Refusal,
    /// The lowest node that it is met at; none for a refusal of another thing than one node.
    pub node: Option<u8>,
}

impl NodeRefusal {
    /// The refusal of an answer as an error.
    pub(crate) fn check(answer: Answer) -> Result<(), NodeRefusal> {
        Refusal::check(answer.number()).map_err(|refusal| NodeRefusal { refusal, node: answer.node() })
    }
}

impl From<Refusal> for NodeRefusal {
    fn from(refusal: Refusal) -> NodeRefusal {
        NodeRefusal { refusal, node: None }
    }
}

impl fmt::Display for NodeRefusal {
    fn fmt(&self, f: &mut fmt::Formatter) -> fmt::Result {
        if let Some(node) = self.node {
            write!(f, "node {node}: ")?;
        }
        self.refusal.fmt(f)
    }
}

impl Error for NodeRefusal {}
