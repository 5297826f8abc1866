//! The refusal table of documents 01 and 02: its words and numbers, and a refused read with its place.

use std::error::Error;
use std::fmt;

/// A word of the refusal table, the reason of a refusal. Its discriminant is the word's number.
///
/// ```
/// use mukdalis::{count_fabric, Fault};
///
/// let fault = count_fabric(65, 1, 1).unwrap_err();
/// assert_eq!(fault, Fault::Inputs);
/// assert_eq!((fault.number(), fault.word()), (2, "inputs"));
/// assert_eq!(fault.to_string(), "refused 2 (inputs)");
/// ```
#[derive(Clone, Copy, Debug, PartialEq, Eq)]
pub enum Fault {
    /// The file is below 6 bytes.
    Stub = 1,
    /// u is not 1 to 64. Block library: P's n is not a power of two from 1 to 512, or S's m is not
    /// 1 to 512.
    Inputs = 2,
    /// k is not 1 to 256; in an edit a 257th gate is appended.
    Gates = 3,
    /// v is not 1 to 64. Block library: S's n is not 1 to 512.
    Outputs = 4,
    /// The file ends inside or before a needed field.
    Cut = 5,
    /// A map byte is above 7.
    Map = 6,
    /// An operand is wire 0, or not below the gate's own; in drawn reading wire 0, or above u + k.
    Operand = 7,
    /// A table is above 15; in a file, where the second operand is absent, above 3.
    Table = 8,
    /// An output is not in u + 1 to u + k. Block library: a wanted input is not in 1 to m or, in P,
    /// not in 1 to n or comes twice.
    Source = 9,
    /// Bytes follow the last output.
    Tail = 10,
    /// A buffer that is written is below its stated length.
    Short = 11,
    /// The input row is not of length u, or an entry is not 0 or 1; in a series the fresh entries or
    /// the start state. Block library: the list of input wires or wanted inputs has another length.
    Contact = 12,
    /// A fabric table is malformed. Block library: an input wire is unmade, or a new wire would pass
    /// 65,535.
    Fabric = 13,
    /// A program is not of its exact length, or a spare bit is set.
    Program = 14,
    /// Some drawn gates each draw from one of the same set.
    Ring = 15,
    /// A hold count is above u or v, or a series has more than 4,096 intervals.
    Hold = 16,
    /// A figure of a plan's record, K or a wire's uses, is not the counted one.
    Tally = 17,
    /// An edit names a gate or an output that the plan lacks: 0, or above its count.
    Place = 18,
}

impl Fault {
    /// Every word, in the order of the numbers.
    pub const TABLE: [(Fault, &'static str); 18] = [
        (Fault::Stub, "stub"),
        (Fault::Inputs, "inputs"),
        (Fault::Gates, "gates"),
        (Fault::Outputs, "outputs"),
        (Fault::Cut, "cut"),
        (Fault::Map, "map"),
        (Fault::Operand, "operand"),
        (Fault::Table, "table"),
        (Fault::Source, "source"),
        (Fault::Tail, "tail"),
        (Fault::Short, "short"),
        (Fault::Contact, "contact"),
        (Fault::Fabric, "fabric"),
        (Fault::Program, "program"),
        (Fault::Ring, "ring"),
        (Fault::Hold, "hold"),
        (Fault::Tally, "tally"),
        (Fault::Place, "place"),
    ];

    /// The fault's number in the table.
    pub fn number(self) -> u32 {
        self as u32
    }

    /// The fault of a number, if the table has it.
    ///
    /// ```
    /// use mukdalis::Fault;
    ///
    /// assert_eq!(Fault::from_number(14), Some(Fault::Program));
    /// assert_eq!(Fault::from_number(0), None);
    /// ```
    pub fn from_number(number: u32) -> Option<Fault> {
        let row = (number as usize).checked_sub(1)?;
        Fault::TABLE.get(row).map(|&(fault, _)| fault)
    }

    /// The fault's word in the table.
    pub fn word(self) -> &'static str {
        Fault::TABLE[self as usize - 1].1
    }
}

impl fmt::Display for Fault {
    fn fmt(&self, out: &mut fmt::Formatter<'_>) -> fmt::Result {
        write!(out, "refused {} ({})", self.number(), self.word())
    }
}

impl Error for Fault {}

/// A refused read.
///
/// ```
/// let refusal = mukdalis::read(&[1, 0, 1, 0, 1, 0, 8]).unwrap_err();
/// assert_eq!((refusal.fault, refusal.at), (mukdalis::Fault::Map, 6));
/// assert_eq!(refusal.to_string(), "refused 6 at 6");
/// ```
#[derive(Clone, Copy, Debug, PartialEq, Eq)]
pub struct Refusal {
    /// The first check that failed.
    pub fault: Fault,
    /// The byte offset where the faulty field begins or would begin.
    pub at: u64,
}

impl fmt::Display for Refusal {
    fn fmt(&self, out: &mut fmt::Formatter<'_>) -> fmt::Result {
        write!(out, "refused {} at {}", self.fault.number(), self.at)
    }
}

impl Error for Refusal {}

/// An export's number: 0 is done, any other a row of the refusal table.
pub(crate) fn answer(number: u32) -> Result<(), Fault> {
    if number == 0 {
        return Ok(());
    }
    let fault = Fault::from_number(number);
    Err(fault.unwrap_or_else(|| panic!("the library answered {number}, which is no refusal")))
}

#[cfg(test)]
mod tests {
    use super::*;

    #[test]
    fn a_word_stands_at_its_number() {
        for (row, &(fault, word)) in Fault::TABLE.iter().enumerate() {
            assert_eq!(fault.number() as usize, row + 1);
            assert_eq!(Fault::from_number(fault.number()), Some(fault));
            assert_eq!(fault.word(), word);
        }
        assert_eq!(Fault::from_number(0), None);
        assert_eq!(Fault::from_number(19), None);
    }
}
