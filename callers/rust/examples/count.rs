//! A small program to learn the calls over borrowed slices from: it loads a text, starts a machine, grants cycles in parts, writes
//! the machine's value in decimal, shows how deep the stack has been, and refused calls.

use tak::{DECIMAL_LENGTH, Parameters, Refusal};

const TEXT: &str = "SET R0 13\nSET R2 -10\nDIV R0 R2 R2\nOUT R2\nPUSH R2\nPOP R0\n";

fn main() -> Result<(), Refusal> {
    // All five differ, so that no two of them can be exchanged unseen.
    let parameters = Parameters {
        k: 9,
        n: 3,
        s: 5,
        b: 2,
        t: 7,
    };

    // The caller owns all memory: the image of 4·T words, N registers, S data cells, the record and the output.
    let mut image = [0; 4 * 7];
    let mut registers = [0; 3];
    let mut cells = [0; 5];
    let mut output = [0; 5];
    let mut bytes = [0; DECIMAL_LENGTH];

    let lines = tak::load(parameters, TEXT.as_bytes(), &mut image)?;
    println!("load: {lines} lines");

    let mut record = tak::start(parameters, &image, &mut registers, &mut cells)?;
    println!("start: {record:?}");

    for cycles in [52, 50, 1, 16] {
        // The record, the registers and the cells go from one grant to the next as the last one left them.
        let granted = tak::grant(
            &mut record,
            cycles,
            &image,
            b"",
            &mut registers,
            &mut cells,
            &mut output,
        )?;
        println!(
            "grant of {cycles}: {}, {} values, {} cycles",
            granted.ending,
            granted.values.len(),
            granted.spent
        );
        for value in granted.values {
            println!("value: {}", tak::decimal(*value, &mut bytes)?);
        }
    }
    println!(
        "record: IAR {}, granted {}, spent {}",
        record.iar, record.granted, record.spent
    );
    // The stack was one deep and is empty again: B + 1 data cells would do.
    println!(
        "stack: SHR {}, deepest {}, least S {}",
        record.shr,
        record.deepest,
        record.deepest + 1
    );

    // A refused call says why and leaves the image as it was.
    let before = image;
    for text in ["SET R0 13\nSCREW R0\n", "SET R2 13\nSET R3 13\n"] {
        if let Err(refusal) = tak::load(parameters, text.as_bytes(), &mut image) {
            println!("load: {refusal}; image unchanged: {}", image == before);
        }
    }
    Ok(())
}
