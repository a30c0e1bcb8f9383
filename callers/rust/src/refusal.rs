//! Why a call was refused.

use core::error::Error;
use core::fmt;

use crate::raw::refusal;

/// Writes the enum and what is known of each refusal from one list: number, its constant in [`crate::raw::refusal`], variant,
/// sentence.
macro_rules! refusals {
    (
        of_calls { $($code:literal $number:ident $variant:ident $sentence:literal)* }
        of_lines { $($line_code:literal $line_number:ident $line_variant:ident $line_sentence:literal)* }
    ) => {
        /// Why a call was refused; the first of its checks that did not pass. A refused call has changed nothing that it was lent.
        ///
        /// K, N, S, B and T are the [`Parameters`](crate::Parameters), and M is 2^(K-1).
        #[derive(Clone, Copy, Debug, PartialEq, Eq, Hash)]
        #[non_exhaustive]
        pub enum Refusal {
            $(#[doc = concat!($code, ": ", $sentence, ".")] $variant,)*
            $(
                #[doc = concat!($line_code, ": ", $line_sentence, ".")]
                $line_variant {
                    /// The index of the first faulty line, counted from 0.
                    line: usize,
                },
            )*
        }

        $(const _: () = assert!(refusal::$number == $code);)*
        $(const _: () = assert!(refusal::$line_number == $line_code);)*

        impl Refusal {
            /// The refusal of a number, and of the index of a faulty line; none of a number that no call answers.
            pub fn from_number(number: u32, line: usize) -> Option<Refusal> {
                match number {
                    $(refusal::$number => Some(Refusal::$variant),)*
                    $(refusal::$line_number => Some(Refusal::$line_variant { line }),)*
                    _ => None,
                }
            }

            /// The number of the refusal, as C has it.
            pub fn number(self) -> u32 {
                match self {
                    $(Refusal::$variant => refusal::$number,)*
                    $(Refusal::$line_variant { .. } => refusal::$line_number,)*
                }
            }

            /// What is wrong, in a sentence without its full stop.
            pub fn sentence(self) -> &'static str {
                match self {
                    $(Refusal::$variant => $sentence,)*
                    $(Refusal::$line_variant { .. } => $line_sentence,)*
                }
            }

            /// The index of the faulty line, counted from 0, where a line of the text is faulty.
            pub fn line(self) -> Option<usize> {
                match self {
                    $(Refusal::$line_variant { line } => Some(line),)*
                    _ => None,
                }
            }
        }
    };
}

refusals! {
    of_calls {
        1 PARAMETER_K ParameterK "K is outside 8 to 30"
        2 PARAMETER_N ParameterN "N is outside 1 to 256"
        3 PARAMETER_S ParameterS "S is outside 1 to 4,096, or above M - 1"
        4 PARAMETER_B ParameterB "B is outside 0 to S"
        5 PARAMETER_T ParameterT "T is outside 1 to 4,096, or above M - 1"
        6 IMAGE_LENGTH ImageLength "the image slice does not have 4*T words"
        7 TEXT_LENGTH TextLength "the text has more than 65,536 bytes"
        8 LINE_COUNT LineCount "the text has more than T lines"
        9 MEMORY_LENGTH MemoryLength "the register slice does not have N numbers, or the cell slice does not have S"
        10 IMAGE Image "no text, of whatever length, yields this image with these parameters"
        15 RECORD Record "IAR, IRCR, SHR, place, granted, spent or deepest of the record, a register or a data cell is outside its limits"
        16 INPUT_LENGTH InputLength "the input has more than 65,536 bytes"
        17 CYCLES Cycles "the grant is over 10^9 cycles, or would take all grants together over 10^15"
        18 DECIMAL_LENGTH DecimalLength "fewer than 11 bytes are lent for a decimal"
        100 RECORD_LENGTH RecordLength "the record slice has another length than a record"
    }
    of_lines {
        11 INSTRUCTION Instruction "the first word of the line is not an instruction"
        12 ARGUMENT_COUNT ArgumentCount "the line does not have as many arguments as its instruction takes"
        13 ARGUMENT_FORM ArgumentForm "an argument of the line is not an argument at all, or has a form that its place does not allow"
        14 ARGUMENT_RANGE ArgumentRange "an argument of the line is a register not below N, a cell not below B, or a number outside -M to M - 1"
        19 SAME_TARGET SameTarget "the first and the third argument of the line, both of which it writes, are one register"
    }
}

impl fmt::Display for Refusal {
    fn fmt(&self, f: &mut fmt::Formatter<'_>) -> fmt::Result {
        if let Some(line) = self.line() {
            write!(f, "line {line}, counted from 0: ")?;
        }
        write!(f, "{} (refusal {})", self.sentence(), self.number())
    }
}

impl Error for Refusal {}

/// The result of a call that answered this number: accepted with 0. `line` is the index of a faulty line.
///
/// A number that is not known is a panic: neither accepting it nor calling it another refusal would be true.
pub(crate) fn accepted(number: u32, line: u64) -> Result<(), Refusal> {
    match Refusal::from_number(number, line as usize) {
        Some(refusal) => Err(refusal),
        None if number == 0 => Ok(()),
        None => {
            panic!("libtak.a answered {number}, which this version of the package does not know")
        }
    }
}

#[cfg(test)]
mod tests {
    use super::*;

    #[test]
    fn numbers_of_calls() {
        assert_eq!(accepted(0, 0), Ok(()));
        assert_eq!(accepted(17, 0), Err(Refusal::Cycles));
        assert_eq!(accepted(12, 4), Err(Refusal::ArgumentCount { line: 4 }));
        assert_eq!(accepted(19, 5), Err(Refusal::SameTarget { line: 5 }));
    }

    #[test]
    #[should_panic(expected = "libtak.a answered 99")]
    fn a_number_that_is_not_known() {
        let _ = accepted(99, 0);
    }
}
