//! The four calls over borrowed slices, with a refusal as an error.

use core::fmt;

use crate::raw::{self, RECORD_LENGTH, ending};
use crate::record::{Parameters, Record};
use crate::refusal::{Refusal, accepted};

/// How an accepted grant ended. A grant looks before each step, in the order in which these stand here.
#[derive(Clone, Copy, Debug, PartialEq, Eq, Hash)]
pub enum Ending {
    /// The last step had a return code other than 0, [`Record::ircr`]; the machine stands still for good.
    Failed,
    /// The program is at its end, at an empty cell or behind the last one; with its image the machine stands still for good.
    Ended,
    /// The leftover does not pay for the next step; the machine goes on with a further grant.
    Paused,
    /// The room left in the output slice does not hold the values of the next step; the machine goes on with a grant of 0 and an
    /// emptied slice. Where no value was written, the whole slice is too short for that step.
    OutputFull,
}

impl Ending {
    /// The ending of a number of [`raw::ending`].
    pub fn from_number(number: u32) -> Option<Ending> {
        match number {
            ending::FAILED => Some(Ending::Failed),
            ending::ENDED => Some(Ending::Ended),
            ending::PAUSED => Some(Ending::Paused),
            ending::OUTPUT_FULL => Some(Ending::OutputFull),
            _ => None,
        }
    }

    /// Its number in [`raw::ending`].
    pub fn number(self) -> u32 {
        match self {
            Ending::Failed => ending::FAILED,
            Ending::Ended => ending::ENDED,
            Ending::Paused => ending::PAUSED,
            Ending::OutputFull => ending::OUTPUT_FULL,
        }
    }
}

impl fmt::Display for Ending {
    fn fmt(&self, f: &mut fmt::Formatter<'_>) -> fmt::Result {
        f.write_str(match self {
            Ending::Failed => "failed",
            Ending::Ended => "ended",
            Ending::Paused => "paused",
            Ending::OutputFull => "output full",
        })
    }
}

/// What an accepted grant gave.
#[derive(Clone, Copy, Debug, PartialEq, Eq)]
#[non_exhaustive]
pub struct Granted<'a> {
    /// How it ended.
    pub ending: Ending,
    /// The values that the program output in this call.
    pub values: &'a [i32],
    /// The cycles spent in this call.
    pub spent: u64,
}

/// Loads a program text into an image of 4·T words and gives the count of its lines.
///
/// # Errors
///
/// In this order: [`Refusal::ParameterK`], `N`, `S`, `B`, `T`, [`Refusal::ImageLength`], [`Refusal::TextLength`],
/// [`Refusal::LineCount`]; then of the first faulty line [`Refusal::Instruction`], [`Refusal::ArgumentCount`], and for each argument
/// from the left [`Refusal::ArgumentForm`], [`Refusal::ArgumentRange`]; last [`Refusal::SameTarget`].
///
/// # Panics
///
/// If the archive is of another version and answers a number that is not known here.
///
/// # Examples
///
/// ```
/// use tak::{Parameters, Refusal};
///
/// let parameters = Parameters { k: 8, n: 2, s: 4, b: 2, t: 6 };
/// let mut image = [0; 4 * 6];
/// assert_eq!(tak::load(parameters, b"SET R0 13\nOUT R0\n", &mut image), Ok(2));
/// assert_eq!(image[..4], [8, 0x4000_0000, 0xC000_000D, 0]);
///
/// let refusal = tak::load(parameters, b"SET R0 13\nOUT R2\n", &mut image).unwrap_err();
/// assert_eq!(refusal, Refusal::ArgumentRange { line: 1 });
/// ```
pub fn load(parameters: Parameters, text: &[u8], image: &mut [u32]) -> Result<usize, Refusal> {
    let reply = raw::load(parameters, text, image);
    accepted(reply.refusal, reply.line)?;
    Ok(reply.lines as usize)
}

/// Makes the fresh record and zeroes the N registers and S data cells. It is also how a machine begins anew.
///
/// # Errors
///
/// In this order: [`Refusal::ParameterK`], `N`, `S`, `B`, `T`, [`Refusal::ImageLength`], [`Refusal::MemoryLength`],
/// [`Refusal::Image`].
///
/// # Panics
///
/// As [`load`].
///
/// # Examples
///
/// ```
/// use tak::{Parameters, Refusal};
///
/// let parameters = Parameters { k: 8, n: 2, s: 4, b: 2, t: 6 };
/// let mut image = [0; 4 * 6];
/// tak::load(parameters, b"OUT SHR", &mut image)?;
///
/// let record = tak::start(parameters, &image, &mut [7; 2], &mut [7; 4])?;
/// assert_eq!((record.iar, record.shr, record.spent, record.deepest), (0, 1, 0, 1));
///
/// let refused = tak::start(parameters, &image, &mut [7; 3], &mut [7; 4]);
/// assert_eq!(refused, Err(Refusal::MemoryLength));
/// # Ok::<(), Refusal>(())
/// ```
pub fn start(
    parameters: Parameters,
    image: &[u32],
    registers: &mut [i32],
    cells: &mut [i32],
) -> Result<Record, Refusal> {
    let mut fields = [0; RECORD_LENGTH];
    let refusal = raw::start(parameters, image, registers, cells, &mut fields);
    accepted(refusal, 0)?;
    Ok(left_by_an_accepted_call(fields))
}

/// Grants cycles to the machine of a record and runs its program until one of the [`Ending`]s holds. The record, the registers and
/// the data cells go from one grant to the next as the one before left them; image and input stay the same.
///
/// After [`Ending::OutputFull`] take the values out and grant 0: the leftover of the earlier grant pays for the rest. An output of
/// [`Parameters::output_length`] values has room for every step. A grant of more instead of 0 lets the leftover grow, and one later
/// call then spends all of it.
///
/// # Errors
///
/// In this order: [`Refusal::ParameterK`], `N`, `S`, `B`, `T`, [`Refusal::ImageLength`], [`Refusal::MemoryLength`],
/// [`Refusal::Image`], [`Refusal::Record`], [`Refusal::InputLength`], [`Refusal::Cycles`].
///
/// # Panics
///
/// As [`load`].
///
/// # Examples
///
/// ```
/// use tak::{Ending, Parameters, Refusal};
///
/// let parameters = Parameters { k: 8, n: 2, s: 4, b: 2, t: 6 };
/// let (mut image, mut registers, mut cells) = ([0; 4 * 6], [0; 2], [0; 4]);
/// tak::load(parameters, b"SET R0 5\nDUMP_REG\nOUT R0\n", &mut image)?;
/// let mut record = tak::start(parameters, &image, &mut registers, &mut cells)?;
///
/// let mut output = [0; 2]; // room for one of the two
/// let granted = tak::grant(&mut record, 1_000, &image, b"", &mut registers, &mut cells, &mut output)?;
/// assert_eq!((granted.ending, granted.values), (Ending::OutputFull, &[5, 0][..]));
/// let granted = tak::grant(&mut record, 0, &image, b"", &mut registers, &mut cells, &mut output)?;
/// assert_eq!((granted.ending, granted.values), (Ending::Ended, &[5][..]));
///
/// let refused = tak::grant(&mut record, 1_000_000_001, &image, b"", &mut registers, &mut cells, &mut output);
/// assert_eq!(refused, Err(Refusal::Cycles));
/// # Ok::<(), Refusal>(())
/// ```
pub fn grant<'a>(
    record: &mut Record,
    cycles: u64,
    image: &[u32],
    input: &[u8],
    registers: &mut [i32],
    cells: &mut [i32],
    output: &'a mut [i32],
) -> Result<Granted<'a>, Refusal> {
    let mut fields = <[i64; RECORD_LENGTH]>::from(*record);
    let reply = raw::grant(&mut fields, cycles, image, input, registers, cells, output);
    accepted(reply.refusal, 0)?;
    *record = left_by_an_accepted_call(fields);
    Ok(Granted {
        ending: Ending::from_number(reply.ending).expect("an accepted grant has an ending"),
        values: &output[..reply.values as usize],
        spent: reply.spent,
    })
}

/// Writes a value in decimal at the start of `bytes`, which are [`DECIMAL_LENGTH`](crate::DECIMAL_LENGTH) or more, and gives the
/// part that was written.
///
/// # Errors
///
/// [`Refusal::DecimalLength`].
///
/// # Panics
///
/// As [`load`].
///
/// # Examples
///
/// ```
/// let mut bytes = [0; tak::DECIMAL_LENGTH];
/// assert_eq!(tak::decimal(-40, &mut bytes), Ok("-40"));
/// assert_eq!(tak::decimal(5, &mut bytes[1..]), Err(tak::Refusal::DecimalLength));
/// ```
pub fn decimal(value: i32, bytes: &mut [u8]) -> Result<&str, Refusal> {
    let reply = raw::decimal(value, bytes);
    accepted(reply.refusal, 0)?;
    let written = &bytes[..reply.count as usize];
    Ok(core::str::from_utf8(written).expect("a decimal has digits and a minus"))
}

/// The record that an accepted call wrote. Its numbers are within their limits, so that every field holds its own.
fn left_by_an_accepted_call(fields: [i64; RECORD_LENGTH]) -> Record {
    Record::try_from(fields).expect("an accepted call leaves numbers within their limits")
}

#[cfg(test)]
mod tests {
    extern crate std;

    use std::string::ToString;

    use super::*;

    #[test]
    fn endings_by_number() {
        let endings = [
            (1, Ending::Failed, "failed"),
            (2, Ending::Ended, "ended"),
            (3, Ending::Paused, "paused"),
            (4, Ending::OutputFull, "output full"),
        ];
        for (number, ending, word) in endings {
            assert_eq!(Ending::from_number(number), Some(ending));
            assert_eq!(ending.number(), number);
            assert_eq!(ending.to_string(), word);
        }
        assert_eq!(Ending::from_number(0), None);
        assert_eq!(Ending::from_number(5), None);
    }
}
