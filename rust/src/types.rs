//! Types, and the check of a sheet by them.

use crate::raw;
use crate::{NodeRefusal, Refusal, Sheet};

/// The most bytes of a type.
const LONGEST: usize = 256;

/// What a value may be: a truth, a number, a list of members of one type, or a pair.
///
/// ```
/// use lens::{Refusal, Type};
///
/// let seats = Type::list(Type::pair(Type::number(), Type::truth()));
/// assert_eq!(seats.to_bytes(), [0x32, 0x33, 0x31, 0x30]);
/// assert_eq!(Type::from_bytes(&[0x32, 0x33, 0x31, 0x30])?, seats);
/// assert_eq!(Type::from_bytes(&[0x32]), Err(Refusal::TYPES_MALFORMED));
/// # Ok::<(), lens::Refusal>(())
/// ```
#[derive(Clone, Debug, PartialEq, Eq, Hash)]
pub enum Type {
    /// False or True.
    Truth,
    /// A number, of kind 04 or 06.
    Number,
    /// A list, empty or not, of such members.
    List(Box<Type>),
    /// A pair of such values.
    Pair(Box<Type>, Box<Type>),
}

impl Type {
    pub fn truth() -> Type {
        Type::Truth
    }

    pub fn number() -> Type {
        Type::Number
    }

    pub fn list(member: Type) -> Type {
        Type::List(Box::new(member))
    }

    pub fn pair(left: Type, right: Type) -> Type {
        Type::Pair(Box::new(left), Box::new(right))
    }

    /// The type's bytes, as [`Sheet::check_types`] takes them; it refuses more than 256.
    pub fn to_bytes(&self) -> Vec<u8> {
        let mut bytes = Vec::new();
        self.write(&mut bytes);
        bytes
    }

    fn write(&self, bytes: &mut Vec<u8>) {
        match self {
            Type::Truth => bytes.push(0x30),
            Type::Number => bytes.push(0x31),
            Type::List(member) => {
                bytes.push(0x32);
                member.write(bytes);
            }
            Type::Pair(left, right) => {
                bytes.push(0x33);
                left.write(bytes);
                right.write(bytes);
            }
        }
    }

    /// The type that these bytes are, at most 256; otherwise [`Refusal::TYPES_MALFORMED`].
    pub fn from_bytes(bytes: &[u8]) -> Result<Type, Refusal> {
        let mut rest = bytes;
        let read = if bytes.len() > LONGEST { None } else { Type::read(&mut rest) };
        read.filter(|_| rest.is_empty()).ok_or(Refusal::TYPES_MALFORMED)
    }

    /// The type that the bytes begin with, which are then those behind it.
    fn read(bytes: &mut &[u8]) -> Option<Type> {
        let (&kind, rest) = bytes.split_first()?;
        *bytes = rest;
        match kind {
            0x30 => Some(Type::Truth),
            0x31 => Some(Type::Number),
            0x32 => Some(Type::list(Type::read(bytes)?)),
            0x33 => Some(Type::pair(Type::read(bytes)?, Type::read(bytes)?)),
            _ => None,
        }
    }
}

impl Sheet<'_> {
    /// Checks the sheet by types, before it is used: one for each plan variable, for each section those of its two variables and of what it
    /// gives, the list's, and one for each node in node order, one behind the other.
    ///
    /// Where the sheet passes, plans and lists of these types never meet [`Refusal::SCOPE`]; they meet [`Refusal::VALUE_KIND`] only where a
    /// number over 65,535 is added to, and [`Refusal::VIEW_KIND`] only there and where an empty list meets a 15.
    ///
    /// Refused are types that are malformed or of another count, then a node that is used twice, then one whose type does not fit: both with
    /// the lowest such node.
    ///
    /// ```
    /// use lens::{Refusal, Sheet, Type};
    ///
    /// // A list of one member, variable 0.
    /// let sheet = Sheet::new(&[0x01, 0x01, 0x00, 0x15, 0x01, 0x02, 0x10, 0x00, 0x13]);
    /// let types = |variable: Type| {
    ///     let list = Type::list(Type::number());
    ///     let nodes = [list.clone(), Type::number(), list.clone()];
    ///     [variable, list].iter().chain(&nodes).flat_map(Type::to_bytes).collect::<Vec<u8>>()
    /// };
    /// assert_eq!(sheet.check_types(&types(Type::number())), Ok(()));
    ///
    /// let refused = sheet.check_types(&types(Type::truth())).unwrap_err();
    /// assert_eq!((refused.refusal, refused.node), (Refusal::NODE_TYPE, Some(1))); // node 1 is a truth, and no number
    /// ```
    pub fn check_types(self, types: &[u8]) -> Result<(), NodeRefusal> {
        NodeRefusal::check(raw::check_types(self.bytes(), types))
    }
}
