//! Runs a program in slices of cycles, through full outputs, with a machine that owns its buffers.

use tak::{Ending, Machine, Parameters, Refusal};

/// Adds up the input's numbers, up to a 0, and outputs each sum; then the registers and the data cells.
const TEXT: &str = "\
IN R0            # 0
JMPEQ 6 R0 R3    # 1: R3 is 0
ADD R1 R0 R1     # 2
OUT R1           # 3
MOV R1 DM0       # 4
JMP 0            # 5
DUMP_REG         # 6
DUMP_DATA_MEM    # 7
";

const INPUT: &[u8] = b"120 35 -20 48 6 500 12 0";

/// The cycles granted between two other things that a handheld does.
const SLICE: u64 = 600;

fn main() -> Result<(), Refusal> {
    let parameters = Parameters {
        k: 16,
        n: 4,
        s: 3,
        b: 1,
        t: 16,
    };
    let mut machine = Machine::new(parameters, TEXT.as_bytes())?;
    loop {
        let mut values = Vec::new();
        let ending = machine.run(SLICE, INPUT, |some| values.extend_from_slice(some))?;
        println!("slice: {ending}, values {values:?}");
        if ending != Ending::Paused {
            break;
        }
    }
    let record = machine.record();
    println!(
        "return code {}, cell {}, {} of {} cycles spent",
        record.ircr, record.iar, record.spent, record.granted
    );
    Ok(())
}
