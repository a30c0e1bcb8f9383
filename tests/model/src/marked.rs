//! The marked runs of document 01, with the answers that it states, and some of `deepest` and DIVR: K = 8, N = 2, S = 4, B = 2, T = 6.

use model::{Parameters, RECORD_LENGTH, ending, record};

use crate::machine::Machine;

const PARAMETERS: Parameters = Parameters {
    k: 8,
    n: 2,
    s: 4,
    b: 2,
    t: 6,
};

/// A machine after one large grant.
struct After {
    refusal: u32,
    image: [u32; 24],
    registers: [i32; 2],
    cells: [i32; 4],
    record: [i64; RECORD_LENGTH],
    output: Vec<i32>,
}

fn run(machine: &dyn Machine, text: &str) -> After {
    let mut after = After {
        refusal: 0,
        image: [0; 24],
        registers: [0; 2],
        cells: [0; 4],
        record: [0; RECORD_LENGTH],
        output: vec![0; 16],
    };
    after.refusal = machine
        .load(PARAMETERS, text.as_bytes(), &mut after.image)
        .refusal;
    if after.refusal == 0 {
        let After {
            image,
            registers,
            cells,
            record,
            output,
            refusal,
        } = &mut after;
        *refusal = machine.start(PARAMETERS, image, registers, cells, record);
        let reply = machine.grant(record, 100_000, image, b"", registers, cells, output);
        output.truncate(reply.values as usize);
    }
    after
}

/// The runs whose answer is another.
pub fn check(machine: &dyn Machine) -> Vec<String> {
    let mut faults = Vec::new();
    let mut hold = |name: &str, holds: bool| {
        if !holds {
            faults.push(name.to_string());
        }
    };
    let image = run(machine, "SET R0 13\nSET R1 -10").image;
    hold(
        "SET R0 13",
        image[..4] == [0x0000_0008, 0x4000_0000, 0xC000_000D, 0],
    );
    hold("-10 as an argument", image[6] == 0xFFFF_FFF6);

    // Two operands, an instruction, the value that it leaves in R1 and the return code.
    for (a, b, line, value, code) in [
        (13, -10, "DIV R0 R1 R1", -1, 0),
        (13, -10, "MOD R0 R1 R1", 3, 0),
        (-13, 10, "MOD R0 R1 R1", -3, 0),
        (-128, -1, "DIV R0 R1 R1", -1, 1),
        (-128, -1, "MOD R0 R1 R1", 0, 0),
        (5, 0, "DIV R0 R1 R1", 0, 2),
        (0, 64, "RSL R1", -128, 0),
        (0, -1, "RSR R1", 127, 0),
        (0, -1, "ASR R1", -1, 0),
        (3, 0, "RNOT R0 R1", -4, 0),
    ] {
        let after = run(machine, &format!("SET R0 {a}\nSET R1 {b}\n{line}"));
        let holds = after.registers[1] == value && after.record[record::IRCR] == code;
        hold(&format!("{line} on {a} and {b}"), holds);
    }
    // Two operands, a DIVR, the values that it leaves in R0 and R1 and the return code.
    for (a, b, line, values, code) in [
        (13, -10, "DIVR R0 R1 R1", [3, -1], 0),
        (-13, 10, "DIVR R0 R1 R1", [-3, -1], 0),
        (-13, -10, "DIVR R0 R1 R1", [-3, 1], 0),
        (13, -10, "DIVR R1 R0 R0", [0, -10], 0),
        (13, -10, "DIVR R0 R0 R1", [0, 1], 0),
        (-128, -1, "DIVR R0 R1 R1", [-128, -1], 1),
        (-128, 0, "DIVR R0 R1 R1", [-128, 0], 2),
        (13, -10, "DIVR R0 IAR R1", [1, 6], 0),
    ] {
        let after = run(machine, &format!("SET R0 {a}\nSET R1 {b}\n{line}"));
        let spent = after.record[record::SPENT] == 11 + 11 + 31;
        let holds = after.registers == values && after.record[record::IRCR] == code && spent;
        hold(&format!("{line} on {a} and {b}"), holds);
    }
    for (line, refusal) in [
        ("DIVR R0 R1 R0", 19),
        ("DIVR R00 R1 R0", 19),
        ("DIVR R0 R0 R0", 19),
        ("DIVR R0 R9 R0", 14),
        ("DIVR IAR R0 IAR", 13),
        ("DIVR R0 R0 R1", 0),
        ("DIVR R0 R1 R1", 0),
    ] {
        hold(line, run(machine, line).refusal == refusal);
    }
    let after = run(machine, "PUSH SHR");
    hold(
        "PUSH SHR",
        after.cells == [0, 0, 2, 0] && after.record[record::SHR] == 2,
    );
    // Programs with the SHR that they leave and the greatest that they reached.
    for (text, shr, deepest) in [
        ("PUSH SHR", 2, 2),
        ("PUSH R0\nPUSH R0\nPOP R0\nPOP R0\nPUSH R0", 2, 3),
        ("PUSH R0\nPUSH R0\nPUSH R0", 3, 3),
        ("POP R0", 1, 1),
    ] {
        let record = run(machine, text).record;
        let holds = record[record::SHR] == shr && record[record::DEEPEST] == deepest;
        hold(&format!("deepest after {text:?}"), holds);
    }
    let after = run(machine, "NOP\nNOP\nNOP\nNOP\nSKIP");
    hold(
        "SKIP at cell 4",
        after.record[record::IRCR] == 1 && after.record[record::IAR] == 4,
    );
    let after = run(machine, "\n\n\nSKIP\nOUT R0");
    hold(
        "SKIP at cell 3",
        after.record[record::IAR] == 5 && after.output.is_empty(),
    );
    hold("SET R0 128", run(machine, "SET R0 128").refusal == 14);
    hold("SET R0 -128", run(machine, "SET R0 -128").refusal == 0);
    hold("MOV R0 IAR", run(machine, "MOV R0 IAR").refusal == 13);

    // The program of `takrun` under grants of 52, 50 and 1.
    let After {
        mut image,
        mut registers,
        mut cells,
        mut record,
        ..
    } = run(machine, "");
    let text = b"SET R0 13\nSET R1 -10\nDIV R0 R1 R1\nOUT R1\n";
    let loaded = machine.load(PARAMETERS, text, &mut image);
    machine.start(PARAMETERS, &image, &mut registers, &mut cells, &mut record);
    let mut output = [7; 3];
    let mut replies = Vec::new();
    for cycles in [52, 50, 1] {
        let reply = machine.grant(
            &mut record,
            cycles,
            &image,
            b"",
            &mut registers,
            &mut cells,
            &mut output,
        );
        replies.push((reply.refusal, reply.ending, reply.values, reply.spent));
    }
    hold(
        "lines",
        (loaded.refusal, loaded.lines, loaded.line) == (0, 4, 0),
    );
    let expected = [
        (0, ending::PAUSED, 0, 52),
        (0, ending::PAUSED, 0, 0),
        (0, ending::ENDED, 1, 51),
    ];
    hold("grants of 52, 50 and 1", replies == expected);
    hold("output", output == [-1, 7, 7]);
    hold("record", record == [8, 2, 4, 2, 6, 4, 0, 1, 0, 103, 103, 1]);
    faults
}
