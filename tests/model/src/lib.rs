//! A model of the TAK machine, written from the papers in plain Rust: load, start, grant and the decimal writer over
//! the same slices and numbers as the calls of `include/tak.h`. It shares no code with the proved library; a record's
//! positions and the endings' numbers are those of the Rust package for callers.

pub mod decimal;
pub mod grant;
pub mod image;
pub mod instructions;
pub mod load;
pub mod start;

pub use decimal::{Written, decimal};
pub use grant::{Granted, grant};
pub use load::{Loaded, load};
pub use start::start;
pub use tak::raw::{RECORD_LENGTH, ending, record, refusal};

/// Texts and inputs may have this many bytes.
pub const MAX_BYTES: usize = 65_536;

/// One grant may have this many cycles.
pub const MAX_GRANT: u64 = 1_000_000_000;

/// All grants together may have this many cycles.
pub const MAX_GRANTED: u64 = 1_000_000_000_000_000;

/// The constructional parameters as a caller gives them: K bits of a cell, N registers, S data cells of which B are
/// directly addressed, T instruction cells.
#[derive(Clone, Copy, Debug, PartialEq, Eq)]
pub struct Parameters {
    pub k: u32,
    pub n: u32,
    pub s: u32,
    pub b: u32,
    pub t: u32,
}

impl Parameters {
    /// Checks 1 to 5: the parameters, or the number of the first one outside its limits. The numbers come as 64-bit
    /// ones because a record may hold what no parameter can.
    pub fn checked(k: i64, n: i64, s: i64, b: i64, t: i64) -> Result<Parameters, u32> {
        if !(8..=30).contains(&k) {
            return Err(1);
        }
        let largest = (1i64 << (k - 1)) - 1;
        if !(1..=256).contains(&n) {
            return Err(2);
        }
        if !(1..=4096).contains(&s) || s > largest {
            return Err(3);
        }
        if !(0..=s).contains(&b) {
            return Err(4);
        }
        if !(1..=4096).contains(&t) || t > largest {
            return Err(5);
        }
        Ok(Parameters {
            k: k as u32,
            n: n as u32,
            s: s as u32,
            b: b as u32,
            t: t as u32,
        })
    }

    /// Checks 1 to 5 of these parameters.
    pub fn check(self) -> Result<Parameters, u32> {
        Parameters::checked(
            self.k.into(),
            self.n.into(),
            self.s.into(),
            self.b.into(),
            self.t.into(),
        )
    }

    /// M: the values of a machine are -M..M-1. Only for parameters that passed their checks.
    pub fn m(self) -> i32 {
        1 << (self.k - 1)
    }
}
