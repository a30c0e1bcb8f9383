//! Sweeps: small calls over whole sets of values, words and lines, one after the other.

use model::instructions::*;
use model::{Parameters, RECORD_LENGTH};

use crate::machine::Machine;

/// The first disagreement of each sweep that has one, and how many sweeps were made.
pub fn sweep(first: &dyn Machine, second: &dyn Machine) -> (u64, Vec<String>) {
    let mut found = Vec::new();
    let mut made = 0;
    let mut note = |result: Option<String>| {
        made += 1;
        found.extend(result);
    };
    let all: Vec<i32> = (-128..128).collect();
    let instructions = 1..=INSTRUCTIONS.len() as u32;
    for instruction in instructions.clone() {
        note(steps(first, second, instruction, 8, &all));
        for k in 9..=30 {
            note(steps(first, second, instruction, k, &edges(k)));
        }
    }
    for turns in 0..1 << STACK_CELLS {
        note(stacks(first, second, turns));
    }
    for granted in 30..=31 {
        note(divisions(first, second, granted));
    }
    for head in 0..64 {
        note(images(first, second, head));
    }
    for instruction in instructions {
        note(lines(first, second, instruction));
    }
    note(decimals(first, second));
    (made, found)
}

/// Values at the ends and in the middle of a range.
fn edges(k: u32) -> Vec<i32> {
    let m = 1i32 << (k - 1);
    let root = 1i32 << ((k - 1) / 2);
    vec![
        -m,
        1 - m,
        2 - m,
        -m / 2 - 1,
        -m / 2,
        -m / 3,
        -root - 1,
        -root,
        -11,
        -10,
        -3,
        -2,
        -1,
        0,
        1,
        2,
        3,
        5,
        10,
        13,
        root - 1,
        root,
        root + 1,
        m / 3,
        m / 2 - 1,
        m / 2,
        m - 2,
        m - 1,
    ]
}

/// One step of an instruction on all pairs of values, in R0 and R1 or in R0 and the number.
fn steps(
    first: &dyn Machine,
    second: &dyn Machine,
    instruction: u32,
    k: u32,
    values: &[i32],
) -> Option<String> {
    let parameters = Parameters {
        k,
        n: 3,
        s: 2,
        b: 1,
        t: 3,
    };
    let forms = forms(instruction)?;
    let mut image = [0; 12];
    image[0] = instruction;
    // Arguments from the left are R0, R1 and R2, but a jump goes to the cell that R2 names.
    let jump = forms.first() == Some(&Form::Target);
    for (place, form) in forms.iter().enumerate() {
        let register = if jump {
            (place as u32 + 2) % 3
        } else {
            place as u32
        };
        image[place + 1] = match form {
            Form::Number => NUMBER << 30,
            _ => REGISTER << 30 | register,
        };
    }
    let number = forms.iter().position(|form| *form == Form::Number);
    for a in values {
        for b in values {
            if let Some(place) = number {
                image[place + 1] = NUMBER << 30 | (*b as u32 & LOW);
            }
            // The third register is a target at or near the ends of 0..T-1.
            let c = (a ^ b).rem_euclid(5) - 1;
            let run = |machine: &dyn Machine| {
                let mut record = [k.into(), 3, 2, 1, 3, 0, 0, 0, 0, 300, 0, 0];
                let mut registers = [*a, *b, c];
                let mut cells = [*b, *a];
                let mut output = [7; 4];
                let reply = machine.grant(
                    &mut record,
                    0,
                    &image,
                    b" 5",
                    &mut registers,
                    &mut cells,
                    &mut output,
                );
                (reply, record, registers, cells, output)
            };
            // Backward jumps may repeat the cell until the cycles are spent; both sides have the same number of them.
            let (ours, theirs) = (run(first), run(second));
            if ours != theirs {
                let name = INSTRUCTIONS[instruction as usize - 1].name;
                return Some(format!(
                    "{parameters:?}, image {image:X?} ({name}), R0 {a}, R1 {b}, R2 {c}, 300 cycles: {ours:?}, {theirs:?}"
                ));
            }
        }
    }
    None
}

/// One DIVR with just enough cycles or one too few, for all registers as its arguments, special ones among them.
fn divisions(first: &dyn Machine, second: &dyn Machine, granted: i64) -> Option<String> {
    for (a, b) in [(0, 1), (0, 2), (1, 0), (1, 2), (2, 0), (2, 1)] {
        for divisor in [0, 1, 2, IAR, IRCR, SHR] {
            let [a, divisor, b] = [a, divisor, b].map(|register| REGISTER << 30 | register);
            let image = [NOP, 0, 0, 0, DIVR, a, divisor, b, 0, 0, 0, 0];
            for x in edges(8) {
                for y in edges(8) {
                    let run = |machine: &dyn Machine| {
                        let mut record = [8, 3, 2, 0, 3, 1, 0, -1, 0, granted, 0, 1];
                        let mut registers = [x, y, x ^ y];
                        let mut cells = [5; 2];
                        let mut output = [];
                        let reply = machine.grant(
                            &mut record,
                            0,
                            &image,
                            b"",
                            &mut registers,
                            &mut cells,
                            &mut output,
                        );
                        (reply, record, registers, cells)
                    };
                    let (ours, theirs) = (run(first), run(second));
                    if ours != theirs {
                        return Some(format!(
                            "image {image:X?}, R0 {x}, R1 {y}, R2 {}, {granted} cycles: {ours:?}, {theirs:?}",
                            x ^ y
                        ));
                    }
                }
            }
        }
    }
    None
}

/// The cells of a program of `stacks`.
const STACK_CELLS: usize = 6;

/// A program of PUSH and POP, as the bits of a number say, from all SHR and all `deepest` at and between their bounds and
/// one beyond, in two grants.
fn stacks(first: &dyn Machine, second: &dyn Machine, turns: u32) -> Option<String> {
    let mut image = [0; 4 * STACK_CELLS];
    for (place, cell) in image.chunks_exact_mut(4).enumerate() {
        cell[0] = if turns >> place & 1 == 0 { PUSH } else { POP };
        cell[1] = REGISTER << 30;
    }
    for (s, b) in (1..=4).flat_map(|s| (0..=s).map(move |b| (s, b))) {
        for (shr, deepest) in (b - 2..=s).flat_map(|shr| (b - 2..=s).map(move |d| (shr, d))) {
            let before = [8, 1, s, b, STACK_CELLS as i64, 0, 0, shr, 0, 0, 0, deepest];
            let run = |machine: &dyn Machine| {
                let mut record = before;
                let mut registers = [3];
                let mut cells = vec![5; s as usize];
                let replies = [20, 28].map(|cycles| {
                    let mut output = [];
                    machine.grant(
                        &mut record,
                        cycles,
                        &image,
                        b"",
                        &mut registers,
                        &mut cells,
                        &mut output,
                    )
                });
                (replies, record, registers, cells)
            };
            let (ours, theirs) = (run(first), run(second));
            if ours != theirs {
                return Some(format!(
                    "record {before:?}, image {image:X?}, 20 and 28 cycles: {ours:?}, {theirs:?}"
                ));
            }
        }
    }
    None
}

/// Start over all images of one head and three words at the edges of what each kind allows.
fn images(first: &dyn Machine, second: &dyn Machine, head: u32) -> Option<String> {
    let parameters = Parameters {
        k: 8,
        n: 2,
        s: 4,
        b: 2,
        t: 2,
    };
    let mut words = vec![0, 1, 44, LOW];
    for index in [0, 1, 2, 255, 256, 257, 258, 259, LOW] {
        words.push(REGISTER << 30 | index);
    }
    for index in [0, 1, 2, 4, 258, LOW] {
        words.push(DIRECT << 30 | index);
    }
    for number in [0i32, 1, 2, 127, 128, -1, -128, -129, 1 << 28, -(1 << 29)] {
        words.push(NUMBER << 30 | (number as u32 & LOW));
    }
    for a in &words {
        for b in &words {
            for c in &words {
                // The cell stands before an empty one or behind a NOP.
                for image in [
                    [head, *a, *b, *c, 0, 0, 0, 0],
                    [NOP, 0, 0, 0, head, *a, *b, *c],
                ] {
                    let run = |machine: &dyn Machine| {
                        let (mut registers, mut cells, mut record) =
                            ([9; 2], [9; 4], [9; RECORD_LENGTH]);
                        let refusal = machine.start(
                            parameters,
                            &image,
                            &mut registers,
                            &mut cells,
                            &mut record,
                        );
                        (refusal, registers, cells, record)
                    };
                    let (ours, theirs) = (run(first), run(second));
                    if ours != theirs {
                        return Some(format!(
                            "start {parameters:?} over {image:X?}: {ours:?} and {theirs:?}"
                        ));
                    }
                }
            }
        }
    }
    None
}

/// Load of all lines of one instruction with up to three words, and some with four.
fn lines(first: &dyn Machine, second: &dyn Machine, instruction: u32) -> Option<String> {
    const WORDS: [&str; 28] = [
        "R0",
        "r00",
        "r01",
        "R2",
        "R256",
        "R258",
        "R18446744073709551616",
        "R",
        "R-0",
        "DM0",
        "dM1",
        "DM2",
        "DM4294967296",
        "DM",
        "IAR",
        "ircr",
        "Shr",
        "0",
        "-0",
        "+127",
        "128",
        "-128",
        "-129",
        "18446744073709551616",
        "-",
        "+",
        "1-",
        "NOP",
    ];
    let parameters = Parameters {
        k: 8,
        n: 2,
        s: 4,
        b: 2,
        t: 2,
    };
    let name = INSTRUCTIONS[instruction as usize - 1].name;
    let check = |text: &str| {
        let run = |machine: &dyn Machine| {
            let mut image = [9; 8];
            (machine.load(parameters, text.as_bytes(), &mut image), image)
        };
        let (ours, theirs) = (run(first), run(second));
        (ours != theirs)
            .then(|| format!("load {parameters:?} of {text:?}: {ours:?} and {theirs:?}"))
    };
    let mut found = check(name);
    for a in WORDS {
        let one = format!("{name} {a}");
        found = found.or_else(|| check(&one));
        for b in WORDS {
            let two = format!("{one} {b}");
            found = found.or_else(|| check(&two));
            for c in WORDS {
                let three = format!("{two} {c}");
                found = found.or_else(|| check(&three));
            }
        }
    }
    found.or_else(|| check(&format!("{name} R0 R0 R0 R0")))
}

/// The decimal writer on all small values and around all powers of ten and two.
fn decimals(first: &dyn Machine, second: &dyn Machine) -> Option<String> {
    let mut values: Vec<i32> = (-70_000..70_000).collect();
    for shift in 0..32 {
        for near in -2..=2 {
            let two = 1i32.wrapping_shl(shift).wrapping_add(near);
            let ten = 10i32.wrapping_pow(shift % 10).wrapping_add(near);
            values.extend([two, two.wrapping_neg(), ten, ten.wrapping_neg()]);
        }
    }
    for value in values {
        for length in [10, 11, 13] {
            let run = |machine: &dyn Machine| {
                let mut bytes = [b'?'; 16];
                (machine.decimal(value, &mut bytes[1..length + 1]), bytes)
            };
            let (ours, theirs) = (run(first), run(second));
            if ours != theirs {
                return Some(format!(
                    "decimal {value} into {length} bytes: {ours:?} and {theirs:?}"
                ));
            }
        }
    }
    None
}
