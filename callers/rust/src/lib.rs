//! The TAK counting machine: it loads a program text, runs it in slices of clock cycles and hands out the values that the program
//! outputs. The calls are those of `include/tak.h`, functions of a library that is proved to give exactly what its definitions
//! say, for all arguments; this package gives them the types of Rust.
//!
//! - `Machine` owns its buffers: the quickest way to run a program. It asks for the feature `alloc`, which is on by default.
//! - [`load`], [`start`], [`grant`] and [`decimal`] borrow theirs and need no heap. The package never needs the standard library.
//! - [`raw`] has the same calls with numbers for everything, as C sees them.
//!
//! A call that does not fit is refused with a [`Refusal`], and changes nothing. How an accepted grant ends is an [`Ending`].
//!
//! The programs are written in TCL, one instruction a line; `TCL.md` has the language, and `CALLS.md` the calls at more length. They
//! stand in `docs` of the repository and are installed in `share/doc/tak`. An input has decimal numbers, with `+` or `-` in front
//! if wanted, between blanks (space, tab, CR, LF).
//!
//! The package links `libtak.a`, which has code for x86-64 with the System V calling convention: that of its own repository, or in
//! `lib` of the prefix where it is installed, else the one of the same version that pkg-config knows. The environment variable `TAK_LIB` names another folder;
//! the archive there must be of this version.
//!
//! ```
//! # #[cfg(feature = "alloc")] {
//! use tak::{Ending, Machine, Parameters};
//!
//! let parameters = Parameters { k: 8, n: 2, s: 4, b: 2, t: 6 };
//! let mut machine = Machine::new(parameters, b"IN R0\nIN R1\nADD R0 R1 R0\nOUT R0\n")?;
//!
//! // Too few cycles for all of it: the machine waits for more.
//! let granted = machine.grant(100, b"40 2")?;
//! assert_eq!((granted.ending, granted.values), (Ending::Paused, &[][..]));
//!
//! let granted = machine.grant(100, b"40 2")?;
//! assert_eq!((granted.ending, granted.values), (Ending::Ended, &[42][..]));
//! assert_eq!(machine.record().spent, 157);
//! # }
//! # Ok::<(), tak::Refusal>(())
//! ```

#![no_std]
#![deny(missing_docs)]

#[cfg(feature = "alloc")]
extern crate alloc;

mod calls;
#[cfg(feature = "alloc")]
mod machine;
pub mod raw;
mod record;
mod refusal;

pub use calls::{Ending, Granted, decimal, grant, load, start};
#[cfg(feature = "alloc")]
pub use machine::Machine;
#[doc(inline)]
pub use raw::{
    DECIMAL_LENGTH, MAX_GRANT, MAX_GRANTED, MAX_INPUT_LENGTH, MAX_K, MAX_N, MAX_S, MAX_T,
    MAX_TEXT_LENGTH, MIN_K, RECORD_LENGTH,
};
pub use record::{Parameters, Record};
pub use refusal::Refusal;
