//! The calls of `include/tak.h` as they are: numbers in, numbers out, and a refusal is a number. The functions here are safe,
//! since borrows rule out what the header forbids: two slices that one call writes to cannot overlap, and every pointer is
//! valid for the length beside it.
//!
//! The package's other calls stand on these, with types of their own. Use these where the numbers themselves are wanted, as of a
//! record that was stored.

use crate::Parameters;

/// How many numbers a record has.
pub const RECORD_LENGTH: usize = 12;

/// The bytes that [`decimal`] asks for.
pub const DECIMAL_LENGTH: usize = 11;

/// The least K.
pub const MIN_K: u32 = 8;
/// The greatest K.
pub const MAX_K: u32 = 30;
/// The greatest N.
pub const MAX_N: u32 = 256;
/// The greatest S.
pub const MAX_S: u32 = 4096;
/// The greatest T.
pub const MAX_T: u32 = 4096;
/// The bytes that a text may have.
pub const MAX_TEXT_LENGTH: usize = 65536;
/// The bytes that an input may have.
pub const MAX_INPUT_LENGTH: usize = 65536;
/// The cycles that one grant may have.
pub const MAX_GRANT: u64 = 1000000000;
/// The cycles that all grants of a machine together may have.
pub const MAX_GRANTED: u64 = 1000000000000000;

/// The bytes of stack that `load` needs at most, on x86-64, its wrapper here not counted, in a program that is static or linked with
/// `-z now`: otherwise a call that is the first to use memmove or memset takes besides what the dynamic linker needs.
pub const LOAD_STACK: usize = 2048;
/// The same of `start`.
pub const START_STACK: usize = 768;
/// The same of `grant`.
pub const GRANT_STACK: usize = 1536;
/// The same of `decimal`.
pub const DECIMAL_STACK: usize = 128;

/// Positions of a record's numbers.
pub mod record {
    /// The bits of a cell.
    pub const K: usize = 0;
    /// The count of registers.
    pub const N: usize = 1;
    /// The count of data cells.
    pub const S: usize = 2;
    /// The count of directly addressed data cells.
    pub const B: usize = 3;
    /// The count of instruction cells.
    pub const T: usize = 4;
    /// The cell that runs next.
    pub const IAR: usize = 5;
    /// The return code of the last step.
    pub const IRCR: usize = 6;
    /// The data cell on top of the stack.
    pub const SHR: usize = 7;
    /// The first byte of the input that is not read yet.
    pub const PLACE: usize = 8;
    /// The cycles of all accepted grants together.
    pub const GRANTED: usize = 9;
    /// The cycles spent.
    pub const SPENT: usize = 10;
    /// The greatest SHR reached since start.
    pub const DEEPEST: usize = 11;
}

/// How an accepted grant ended.
pub mod ending {
    /// The last step had a return code other than 0.
    pub const FAILED: u32 = 1;
    /// The program is at its end.
    pub const ENDED: u32 = 2;
    /// The leftover does not pay for the next step.
    pub const PAUSED: u32 = 3;
    /// The room left in the output slice does not hold the values of the next step.
    pub const OUTPUT_FULL: u32 = 4;
}

/// The numbers of the refusals; [`Refusal`](crate::Refusal) has their sentences.
pub mod refusal {
    /// [`Refusal::ParameterK`](crate::Refusal::ParameterK).
    pub const PARAMETER_K: u32 = 1;
    /// [`Refusal::ParameterN`](crate::Refusal::ParameterN).
    pub const PARAMETER_N: u32 = 2;
    /// [`Refusal::ParameterS`](crate::Refusal::ParameterS).
    pub const PARAMETER_S: u32 = 3;
    /// [`Refusal::ParameterB`](crate::Refusal::ParameterB).
    pub const PARAMETER_B: u32 = 4;
    /// [`Refusal::ParameterT`](crate::Refusal::ParameterT).
    pub const PARAMETER_T: u32 = 5;
    /// [`Refusal::ImageLength`](crate::Refusal::ImageLength).
    pub const IMAGE_LENGTH: u32 = 6;
    /// [`Refusal::TextLength`](crate::Refusal::TextLength).
    pub const TEXT_LENGTH: u32 = 7;
    /// [`Refusal::LineCount`](crate::Refusal::LineCount).
    pub const LINE_COUNT: u32 = 8;
    /// [`Refusal::MemoryLength`](crate::Refusal::MemoryLength).
    pub const MEMORY_LENGTH: u32 = 9;
    /// [`Refusal::Image`](crate::Refusal::Image).
    pub const IMAGE: u32 = 10;
    /// [`Refusal::Instruction`](crate::Refusal::Instruction).
    pub const INSTRUCTION: u32 = 11;
    /// [`Refusal::ArgumentCount`](crate::Refusal::ArgumentCount).
    pub const ARGUMENT_COUNT: u32 = 12;
    /// [`Refusal::ArgumentForm`](crate::Refusal::ArgumentForm).
    pub const ARGUMENT_FORM: u32 = 13;
    /// [`Refusal::ArgumentRange`](crate::Refusal::ArgumentRange).
    pub const ARGUMENT_RANGE: u32 = 14;
    /// [`Refusal::Record`](crate::Refusal::Record).
    pub const RECORD: u32 = 15;
    /// [`Refusal::InputLength`](crate::Refusal::InputLength).
    pub const INPUT_LENGTH: u32 = 16;
    /// [`Refusal::Cycles`](crate::Refusal::Cycles).
    pub const CYCLES: u32 = 17;
    /// [`Refusal::DecimalLength`](crate::Refusal::DecimalLength).
    pub const DECIMAL_LENGTH: u32 = 18;
    /// [`Refusal::SameTarget`](crate::Refusal::SameTarget).
    pub const SAME_TARGET: u32 = 19;
    /// [`Refusal::RecordLength`](crate::Refusal::RecordLength).
    pub const RECORD_LENGTH: u32 = 100;
}

/// The reply of `load`; `refusal` is 0 where the text was accepted.
#[derive(Clone, Copy, Debug, PartialEq, Eq)]
pub struct Loaded {
    /// The number of the refusal, or 0.
    pub refusal: u32,
    /// The count of lines of an accepted text.
    pub lines: u64,
    /// The index of the faulty line.
    pub line: u64,
}

/// The reply of `grant`; `refusal` is 0 where the grant was accepted.
#[derive(Clone, Copy, Debug, PartialEq, Eq)]
pub struct Granted {
    /// The number of the refusal, or 0.
    pub refusal: u32,
    /// One of the numbers in [`ending`], 0 where the grant was refused.
    pub ending: u32,
    /// The number of values written to the output slice.
    pub values: u64,
    /// The cycles spent in this call.
    pub spent: u64,
}

/// The reply of `decimal`; `refusal` is 0 where the value was written.
#[derive(Clone, Copy, Debug, PartialEq, Eq)]
pub struct Written {
    /// The number of the refusal, or 0.
    pub refusal: u32,
    /// The count of bytes written.
    pub count: u64,
}

unsafe extern "C" {
    fn tak_load(
        k: u32,
        n: u32,
        s: u32,
        b: u32,
        t: u32,
        text: *const u8,
        text_length: usize,
        image: *mut u32,
        image_length: usize,
        lines: *mut u64,
        line: *mut u64,
    ) -> u32;

    fn tak_start(
        k: u32,
        n: u32,
        s: u32,
        b: u32,
        t: u32,
        image: *const u32,
        image_length: usize,
        registers: *mut i32,
        registers_length: usize,
        cells: *mut i32,
        cells_length: usize,
        record: *mut i64,
        record_length: usize,
    ) -> u32;

    fn tak_grant(
        record: *mut i64,
        record_length: usize,
        cycles: u64,
        image: *const u32,
        image_length: usize,
        input: *const u8,
        input_length: usize,
        registers: *mut i32,
        registers_length: usize,
        cells: *mut i32,
        cells_length: usize,
        output: *mut i32,
        output_length: usize,
        ending: *mut u32,
        values: *mut u64,
        spent: *mut u64,
    ) -> u32;

    fn tak_decimal(value: i32, bytes: *mut u8, length: usize, count: *mut u64) -> u32;
}

/// Before a call, the numbers that it reports hold a value that no call reports, so that one left unwritten shows.
const UNWRITTEN: u64 = u64::MAX;

/// Loads a text into an image of 4·T words.
#[must_use = "the call may have been refused"]
pub fn load(parameters: Parameters, text: &[u8], image: &mut [u32]) -> Loaded {
    let Parameters { k, n, s, b, t } = parameters;
    let (mut lines, mut line) = (UNWRITTEN, UNWRITTEN);
    // SAFETY: each pointer comes from a borrow that lasts for the call and is valid for the length beside it.
    let refusal = unsafe {
        tak_load(
            k,
            n,
            s,
            b,
            t,
            text.as_ptr(),
            text.len(),
            image.as_mut_ptr(),
            image.len(),
            &mut lines,
            &mut line,
        )
    };
    Loaded {
        refusal,
        lines,
        line,
    }
}

/// Writes the fresh record and zeroes the N registers and S data cells; gives 0 or the refusal.
#[must_use = "the call may have been refused"]
pub fn start(
    parameters: Parameters,
    image: &[u32],
    registers: &mut [i32],
    cells: &mut [i32],
    record: &mut [i64],
) -> u32 {
    let Parameters { k, n, s, b, t } = parameters;
    // SAFETY: as in `load`.
    unsafe {
        tak_start(
            k,
            n,
            s,
            b,
            t,
            image.as_ptr(),
            image.len(),
            registers.as_mut_ptr(),
            registers.len(),
            cells.as_mut_ptr(),
            cells.len(),
            record.as_mut_ptr(),
            record.len(),
        )
    }
}

/// Grants cycles to the machine of a record.
#[must_use = "the call may have been refused"]
pub fn grant(
    record: &mut [i64],
    cycles: u64,
    image: &[u32],
    input: &[u8],
    registers: &mut [i32],
    cells: &mut [i32],
    output: &mut [i32],
) -> Granted {
    let (mut ending, mut values, mut spent) = (u32::MAX, UNWRITTEN, UNWRITTEN);
    // SAFETY: as in `load`.
    let refusal = unsafe {
        tak_grant(
            record.as_mut_ptr(),
            record.len(),
            cycles,
            image.as_ptr(),
            image.len(),
            input.as_ptr(),
            input.len(),
            registers.as_mut_ptr(),
            registers.len(),
            cells.as_mut_ptr(),
            cells.len(),
            output.as_mut_ptr(),
            output.len(),
            &mut ending,
            &mut values,
            &mut spent,
        )
    };
    Granted {
        refusal,
        ending,
        values,
        spent,
    }
}

/// Writes a value in decimal at the start of `bytes`.
#[must_use = "the call may have been refused"]
pub fn decimal(value: i32, bytes: &mut [u8]) -> Written {
    let mut count = UNWRITTEN;
    // SAFETY: as in `load`.
    let refusal = unsafe { tak_decimal(value, bytes.as_mut_ptr(), bytes.len(), &mut count) };
    Written { refusal, count }
}
