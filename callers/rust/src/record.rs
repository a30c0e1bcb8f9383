//! The numbers that fix a machine, and where it stands between two grants.

use crate::raw::{RECORD_LENGTH, record};
use crate::refusal::Refusal;

/// The five parameters of a machine, and what they fix: its image has 4·T words, and it has N registers and S data cells.
///
/// Any numbers can be put here; the calls check them.
#[derive(Clone, Copy, Debug, PartialEq, Eq, Hash)]
pub struct Parameters {
    /// The bits of a register or data cell, 8 to 30. M is 2^(K-1); values are -M to M - 1.
    pub k: u32,
    /// The count of registers, 1 to 256.
    pub n: u32,
    /// The count of data cells, 1 to 4,096 and at most M - 1.
    pub s: u32,
    /// The count of data cells that are addressed directly, 0 to S; the others are the stack.
    pub b: u32,
    /// The count of instruction cells, 1 to 4,096 and at most M - 1.
    pub t: u32,
}

impl Parameters {
    /// The words of an image: 4·T.
    pub const fn image_length(self) -> usize {
        4 * self.t as usize
    }

    /// The values that an output slice needs so that every step has room in it: the greater of N and S, the longest dump.
    pub const fn output_length(self) -> usize {
        (if self.n < self.s { self.s } else { self.n }) as usize
    }
}

/// Where a machine stands between two grants. [`start`](crate::start) makes it, and [`grant`](crate::grant) keeps it.
///
/// To be stored it becomes [`RECORD_LENGTH`] numbers, at the positions of [`raw::record`](crate::raw::record), and is made of them
/// again; a version with another `RECORD_LENGTH` does not take them. `CALLS.md` says how a record from before version 0.3.0 is
/// carried over.
///
/// ```
/// use tak::{Parameters, RECORD_LENGTH, Record, Refusal};
///
/// let parameters = Parameters { k: 8, n: 2, s: 4, b: 2, t: 6 };
/// let record = tak::start(parameters, &[0; 24], &mut [0; 2], &mut [0; 4])?;
/// let stored: [i64; RECORD_LENGTH] = record.into();
/// assert_eq!(Record::try_from(&stored[..]), Ok(record));
/// assert_eq!(Record::try_from(&stored[1..]), Err(Refusal::RecordLength));
/// # Ok::<(), Refusal>(())
/// ```
#[derive(Clone, Copy, Debug, PartialEq, Eq, Hash)]
#[non_exhaustive]
pub struct Record {
    /// The machine's parameters.
    pub parameters: Parameters,
    /// The cell that runs next, or that has failed, 0 to T; a line of the text fills the cell of its index, from 0.
    pub iar: u32,
    /// The return code of the last step, 0 to 3; the machine has failed if it is not 0.
    ///
    /// - Arithmetic: 1, the result is outside -M to M - 1; 2, the divisor is 0.
    /// - IN: 1, the next word of the input is not a number; 2, it is outside -M to M - 1; 3, nothing is left.
    /// - PUSH: 1, the stack is full. POP: 1, it is empty.
    /// - NOT, AND, OR, XOR, NAND, NOR: 1, a value is not a truth value (-1 or 0). JMPT and JMPF: 2, the same, before all else.
    /// - A jump that is taken: 1, the target is not 0 to T - 1. SKIP: 1, there is no cell to go to.
    pub ircr: u32,
    /// The data cell on top of the stack, B - 1 (the stack is empty) to S - 1.
    pub shr: i32,
    /// The first byte of the input that is not read yet, which a failing IN leaves, 0 to the input's length.
    pub place: usize,
    /// The cycles of all accepted grants together, at most [`MAX_GRANTED`](crate::MAX_GRANTED).
    pub granted: u64,
    /// The cycles spent, at most `granted`.
    pub spent: u64,
    /// The greatest SHR reached since start, `shr` to S - 1; B - 1 at first. A POP does not lower it, and a PUSH that fails does not
    /// raise it.
    ///
    /// S = `deepest + 1`, or 1 if that is 0, is the least S with which the run would have come as far; where a PUSH has failed this is
    /// S as it is, and the run needs more. `TCL.md` says how to choose S by it.
    pub deepest: i32,
}

impl Record {
    /// The cycles that were granted and are not spent. A grant may spend all of them, besides its own: look at them first in a
    /// record that comes from elsewhere.
    pub fn leftover(&self) -> u64 {
        self.granted.saturating_sub(self.spent)
    }
}

/// The record as the numbers that C has, to be stored or sent. A number above 2^63 - 1 becomes that, which is as much outside its
/// limits.
impl From<Record> for [i64; RECORD_LENGTH] {
    fn from(from: Record) -> Self {
        let long = |number: u64| i64::try_from(number).unwrap_or(i64::MAX);
        let mut fields = [0; RECORD_LENGTH];
        fields[record::K] = from.parameters.k.into();
        fields[record::N] = from.parameters.n.into();
        fields[record::S] = from.parameters.s.into();
        fields[record::B] = from.parameters.b.into();
        fields[record::T] = from.parameters.t.into();
        fields[record::IAR] = from.iar.into();
        fields[record::IRCR] = from.ircr.into();
        fields[record::SHR] = from.shr.into();
        fields[record::PLACE] = long(from.place as u64);
        fields[record::GRANTED] = long(from.granted);
        fields[record::SPENT] = long(from.spent);
        fields[record::DEEPEST] = from.deepest.into();
        fields
    }
}

/// The record of stored numbers. Only what a field cannot hold is refused here, with the refusal of that field; the other limits are
/// checked by each grant, which may find another fault first.
impl TryFrom<[i64; RECORD_LENGTH]> for Record {
    type Error = Refusal;

    fn try_from(fields: [i64; RECORD_LENGTH]) -> Result<Record, Refusal> {
        let parameter =
            |position: usize, refusal| u32::try_from(fields[position]).map_err(|_| refusal);
        let refused = |_| Refusal::Record;
        Ok(Record {
            parameters: Parameters {
                k: parameter(record::K, Refusal::ParameterK)?,
                n: parameter(record::N, Refusal::ParameterN)?,
                s: parameter(record::S, Refusal::ParameterS)?,
                b: parameter(record::B, Refusal::ParameterB)?,
                t: parameter(record::T, Refusal::ParameterT)?,
            },
            iar: fields[record::IAR].try_into().map_err(refused)?,
            ircr: fields[record::IRCR].try_into().map_err(refused)?,
            shr: fields[record::SHR].try_into().map_err(refused)?,
            place: fields[record::PLACE].try_into().map_err(refused)?,
            granted: fields[record::GRANTED].try_into().map_err(refused)?,
            spent: fields[record::SPENT].try_into().map_err(refused)?,
            deepest: fields[record::DEEPEST].try_into().map_err(refused)?,
        })
    }
}

/// The same of a slice, which must have [`RECORD_LENGTH`] numbers.
impl TryFrom<&[i64]> for Record {
    type Error = Refusal;

    fn try_from(fields: &[i64]) -> Result<Record, Refusal> {
        let fields = <[i64; RECORD_LENGTH]>::try_from(fields).map_err(|_| Refusal::RecordLength)?;
        Record::try_from(fields)
    }
}

#[cfg(test)]
mod tests {
    use super::*;

    const RECORD: Record = Record {
        parameters: Parameters {
            k: 9,
            n: 3,
            s: 5,
            b: 0,
            t: 7,
        },
        iar: 6,
        ircr: 2,
        shr: -1,
        place: 8,
        granted: 1_000_000_000_000_000,
        spent: 10,
        deepest: 3,
    };

    #[test]
    fn a_record_is_read_back() {
        let fields = <[i64; RECORD_LENGTH]>::from(RECORD);
        assert_eq!(
            fields,
            [9, 3, 5, 0, 7, 6, 2, -1, 8, 1_000_000_000_000_000, 10, 3]
        );
        assert_eq!(Record::try_from(fields), Ok(RECORD));
    }

    #[test]
    fn numbers_that_no_field_holds() {
        let wanted = [
            Refusal::ParameterK,
            Refusal::ParameterN,
            Refusal::ParameterS,
            Refusal::ParameterB,
            Refusal::ParameterT,
        ];
        for position in 0..RECORD_LENGTH {
            let mut fields = <[i64; RECORD_LENGTH]>::from(RECORD);
            fields[position] = i64::MIN;
            let refusal = wanted.get(position).copied().unwrap_or(Refusal::Record);
            assert_eq!(Record::try_from(fields), Err(refusal), "{position}");
        }
    }

    #[test]
    fn shr_and_deepest_hold_32_bits() {
        for position in [record::SHR, record::DEEPEST] {
            let taken = |number: i64| {
                let mut fields = <[i64; RECORD_LENGTH]>::from(RECORD);
                fields[position] = number;
                Record::try_from(fields).map(|record| (fields, record))
            };
            let (least, greatest) = (i64::from(i32::MIN), i64::from(i32::MAX));
            for number in [least, -1, greatest] {
                let (fields, record) = taken(number).unwrap();
                assert_eq!(<[i64; RECORD_LENGTH]>::from(record), fields);
            }
            for number in [i64::MIN, least - 1, greatest + 1, i64::MAX] {
                assert_eq!(taken(number), Err(Refusal::Record), "{position}");
            }
        }
    }

    #[test]
    fn numbers_that_are_too_great_stay_too_great() {
        let record = Record {
            place: usize::MAX,
            granted: u64::MAX,
            spent: 1 << 63,
            ..RECORD
        };
        let fields = <[i64; RECORD_LENGTH]>::from(record);
        assert_eq!(fields[record::PLACE..record::DEEPEST], [i64::MAX; 3]);
    }

    #[test]
    fn leftover_and_lengths() {
        assert_eq!(RECORD.leftover(), 999_999_999_999_990);
        let no_leftover = Record {
            granted: 9,
            ..RECORD
        };
        assert_eq!(no_leftover.leftover(), 0);
        assert_eq!(RECORD.parameters.image_length(), 28);
        assert_eq!(RECORD.parameters.output_length(), 5);
    }
}
