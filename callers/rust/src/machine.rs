//! A machine that owns its buffers.

use alloc::vec;
use alloc::vec::Vec;

use crate::calls::{self, Ending, Granted};
use crate::record::{Parameters, Record};
use crate::refusal::Refusal;

/// The least values that the output has room for, so that a program with small dumps does not stop at every value.
const LEAST_OUTPUT: usize = 256;

/// A machine with its image, memory and record, and an output of its own that has room for every step.
///
/// ```
/// use tak::{Ending, Machine, Parameters};
///
/// // 1, 2, 3 and so on, for ever
/// let parameters = Parameters { k: 16, n: 1, s: 1, b: 0, t: 8 };
/// let mut machine = Machine::new(parameters, b"INC R0 1\nOUT R0\nJMP 0\n")?;
///
/// let mut values = Vec::new();
/// let ending = machine.run(200, b"", |some| values.extend_from_slice(some))?;
/// assert_eq!((ending, values), (Ending::Paused, vec![1, 2]));
/// assert_eq!(machine.record().leftover(), 48);
/// # Ok::<(), tak::Refusal>(())
/// ```
#[derive(Clone, Debug)]
pub struct Machine {
    record: Record,
    image: Vec<u32>,
    registers: Vec<i32>,
    cells: Vec<i32>,
    output: Vec<i32>,
}

impl Machine {
    /// Loads a program text and starts a machine with it.
    ///
    /// # Errors
    ///
    /// Those of [`load`](crate::load) but [`Refusal::ImageLength`].
    pub fn new(parameters: Parameters, text: &[u8]) -> Result<Machine, Refusal> {
        // No image is empty, so that this call sees whether the parameters fit before any memory is asked for.
        let checked = calls::load(parameters, text, &mut []);
        if checked != Err(Refusal::ImageLength) {
            checked?;
        }
        let mut image = vec![0; parameters.image_length()];
        calls::load(parameters, text, &mut image)?;
        Machine::from_image(parameters, image)
    }

    /// Starts a machine with an image that was loaded before.
    ///
    /// # Errors
    ///
    /// Those of [`start`](crate::start) but [`Refusal::MemoryLength`].
    pub fn from_image(parameters: Parameters, image: Vec<u32>) -> Result<Machine, Refusal> {
        // No memory is empty: as above.
        let checked = calls::start(parameters, &image, &mut [], &mut []);
        if checked != Err(Refusal::MemoryLength) {
            checked?;
        }
        let mut registers = vec![0; parameters.n as usize];
        let mut cells = vec![0; parameters.s as usize];
        let record = calls::start(parameters, &image, &mut registers, &mut cells)?;
        Ok(Machine::from_parts(record, image, registers, cells))
    }

    /// A machine that goes on from where another stood, by its record, image, registers and data cells; the input must be kept
    /// too. Nothing is checked here: a grant refuses parts that do not fit each other, and [`Machine::check`] sees it without one. A
    /// grant also spends the leftover of the record ([`Record::leftover`]), which in one from elsewhere may be up to 10^15 cycles.
    pub fn from_parts(
        record: Record,
        image: Vec<u32>,
        registers: Vec<i32>,
        cells: Vec<i32>,
    ) -> Machine {
        let output = vec![0; registers.len().max(cells.len()).max(LEAST_OUTPUT)];
        Machine {
            record,
            image,
            registers,
            cells,
            output,
        }
    }

    /// The record, image, registers and data cells, from which [`Machine::from_parts`] makes the machine again.
    ///
    /// ```
    /// use tak::{Ending, Machine, Parameters};
    ///
    /// let parameters = Parameters { k: 8, n: 2, s: 4, b: 2, t: 6 };
    /// let mut machine = Machine::new(parameters, b"IN R0\nIN R1\nADD R0 R1 R0\nOUT R0\n")?;
    /// machine.grant(60, b"40 2")?;
    ///
    /// let (record, image, registers, cells) = machine.into_parts();
    /// let mut machine = Machine::from_parts(record, image, registers, cells);
    /// machine.check(b"40 2")?;
    /// assert_eq!(machine.grant(100, b"40 2")?.values, [42]);
    /// # Ok::<(), tak::Refusal>(())
    /// ```
    pub fn into_parts(self) -> (Record, Vec<u32>, Vec<i32>, Vec<i32>) {
        (self.record, self.image, self.registers, self.cells)
    }

    /// Begins anew: the fresh record, and zeros in registers and data cells.
    ///
    /// # Errors
    ///
    /// Those of [`start`](crate::start), if the parts of [`Machine::from_parts`] do not fit each other.
    pub fn restart(&mut self) -> Result<(), Refusal> {
        let parameters = self.record.parameters;
        self.record = calls::start(
            parameters,
            &self.image,
            &mut self.registers,
            &mut self.cells,
        )?;
        Ok(())
    }

    /// Whether a grant with this input passes every check but that of its cycles; no step is taken.
    ///
    /// # Errors
    ///
    /// Those of [`grant`](crate::grant) but [`Refusal::Cycles`].
    pub fn check(&mut self, input: &[u8]) -> Result<(), Refusal> {
        // The cycles are checked last, and no grant may have as many.
        match self.grant(u64::MAX, input) {
            Err(Refusal::Cycles) => Ok(()),
            other => other.map(|_| ()),
        }
    }

    /// Grants cycles once and gives what this call output. After [`Ending::OutputFull`] a grant of 0 goes on; [`Machine::run`] does
    /// so by itself. The input is the same in every call of one run.
    ///
    /// # Errors
    ///
    /// Those of [`grant`](crate::grant).
    pub fn grant(&mut self, cycles: u64, input: &[u8]) -> Result<Granted<'_>, Refusal> {
        calls::grant(
            &mut self.record,
            cycles,
            &self.image,
            input,
            &mut self.registers,
            &mut self.cells,
            &mut self.output,
        )
    }

    /// Grants cycles, hands the values to `take`, and after each full output grants 0, until the machine has failed, ended or paused.
    /// `take` is called with one value or more at a time, and not at all if there are none. The input is the same in every call of
    /// one run.
    ///
    /// # Errors
    ///
    /// Those of [`grant`](crate::grant).
    pub fn run(
        &mut self,
        cycles: u64,
        input: &[u8],
        mut take: impl FnMut(&[i32]),
    ) -> Result<Ending, Refusal> {
        let mut cycles = cycles;
        loop {
            let granted = self.grant(cycles, input)?;
            if !granted.values.is_empty() {
                take(granted.values);
            }
            if granted.ending != Ending::OutputFull {
                return Ok(granted.ending);
            }
            cycles = 0;
        }
    }

    /// Where the machine stands, and how deep its stack has been.
    pub fn record(&self) -> &Record {
        &self.record
    }

    /// The image, four words for each instruction cell.
    pub fn image(&self) -> &[u32] {
        &self.image
    }

    /// The registers.
    pub fn registers(&self) -> &[i32] {
        &self.registers
    }

    /// The data cells, the stack's among them.
    pub fn cells(&self) -> &[i32] {
        &self.cells
    }
}
