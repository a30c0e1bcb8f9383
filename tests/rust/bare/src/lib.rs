//! The calls over borrowed slices where there is no standard library and no heap. The panic handler would clash with that of the
//! standard library, and a heap would need an allocator: this builds only if the package asks for neither.

#![no_std]

use tak::{DECIMAL_LENGTH, Parameters, Record, Refusal};

const PARAMETERS: Parameters = Parameters {
    k: 8,
    n: 2,
    s: 4,
    b: 2,
    t: 6,
};

#[panic_handler]
fn panic(_: &core::panic::PanicInfo) -> ! {
    loop {}
}

fn run(text: &[u8], bytes: &mut [u8; DECIMAL_LENGTH]) -> Result<Record, Refusal> {
    let (mut image, mut registers, mut cells, mut output) = ([0; 24], [0; 2], [0; 4], [0; 4]);
    tak::load(PARAMETERS, text, &mut image)?;
    let mut record = tak::start(PARAMETERS, &image, &mut registers, &mut cells)?;
    let granted = tak::grant(
        &mut record,
        1_000,
        &image,
        b"",
        &mut registers,
        &mut cells,
        &mut output,
    )?;
    if let [value] = granted.values {
        tak::decimal(*value, bytes)?;
    }
    Ok(record)
}

/// Runs the program `SET R0 -13`, `OUT R0` and writes its value; gives the cycles spent, or the refusal's number below 0.
#[unsafe(no_mangle)]
pub extern "C" fn bare_run(bytes: &mut [u8; DECIMAL_LENGTH]) -> i64 {
    match run(b"SET R0 -13\nOUT R0\n", bytes) {
        Ok(record) => record.spent as i64,
        Err(refusal) => -i64::from(refusal.number()),
    }
}
