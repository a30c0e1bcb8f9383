//! Times the proved library and the plain model on the same calls, in turn and in one process, and prints a table.

mod calls;
mod clock;
mod programs;

use std::process::ExitCode;
use std::time::Duration;

use calls::{Calls, LIBRARY, MODEL};
use clock::cpu_time;
use model::{Parameters, RECORD_LENGTH};

/// Each row is run so often on each side; the shortest time counts.
const REPETITIONS: usize = 5;

/// The time of one run and everything that it left.
struct Run {
    time: Duration,
    left: Vec<u64>,
}

/// A row: its name and what it runs.
struct Row {
    name: &'static str,
    run: Box<dyn Fn(&Calls) -> Run>,
}

/// A row of grants to one machine. Load and start stand before the time that is taken.
struct Grants {
    parameters: Parameters,
    text: String,
    input: Vec<u8>,
    cycles: u64,
    count: u32,
    /// Whether each grant finds a freshly started machine.
    restart: bool,
    output: usize,
}

fn grants(name: &'static str, grants: Grants) -> Row {
    Row {
        name,
        run: Box::new(move |calls| run_grants(calls, &grants)),
    }
}

fn run_grants(calls: &Calls, grants: &Grants) -> Run {
    let parameters = grants.parameters;
    let mut image = vec![0; 4 * parameters.t as usize];
    let mut registers = vec![0; parameters.n as usize];
    let mut cells = vec![0; parameters.s as usize];
    let mut record = [0; RECORD_LENGTH];
    let mut output = vec![0; grants.output];
    let mut left = Vec::new();
    let loaded = (calls.load)(parameters, grants.text.as_bytes(), &mut image);
    assert_eq!(loaded.refusal, 0, "line {} of a row's text", loaded.line);
    let start = |registers: &mut [i32], cells: &mut [i32], record: &mut [i64]| {
        let refusal = (calls.start)(parameters, &image, registers, cells, record);
        assert_eq!(refusal, 0, "a row's start");
    };
    start(&mut registers, &mut cells, &mut record);
    left.reserve(3 * grants.count as usize);
    let mut begin = cpu_time();
    let mut time = Duration::ZERO;
    for _ in 0..grants.count {
        if grants.restart {
            time += cpu_time() - begin;
            start(&mut registers, &mut cells, &mut record);
            begin = cpu_time();
        }
        let reply = (calls.grant)(
            &mut record,
            grants.cycles,
            &image,
            &grants.input,
            &mut registers,
            &mut cells,
            &mut output,
        );
        assert_eq!(reply.refusal, 0, "a row's grant");
        left.extend([u64::from(reply.ending), reply.values, reply.spent]);
    }
    time += cpu_time() - begin;
    left.extend(record.map(|number| number as u64));
    for value in registers.iter().chain(&cells).chain(&output) {
        left.push(*value as u64);
    }
    Run { time, left }
}

/// A row of loads of one text.
fn loads(name: &'static str, text: String, count: u32) -> Row {
    let parameters = programs::LARGE;
    Row {
        name,
        run: Box::new(move |calls| {
            let mut image = vec![0; 4 * parameters.t as usize];
            let mut left = Vec::new();
            let begin = cpu_time();
            for _ in 0..count {
                let loaded = (calls.load)(parameters, text.as_bytes(), &mut image);
                left.extend([u64::from(loaded.refusal), loaded.lines, loaded.line]);
            }
            let time = cpu_time() - begin;
            assert_eq!(left[0], 0, "line {} of a row's text", left[2]);
            left.extend(image.iter().map(|word| u64::from(*word)));
            Run { time, left }
        }),
    }
}

/// A row of values in decimal, of all lengths and both signs.
fn decimals(name: &'static str, count: i32) -> Row {
    Row {
        name,
        run: Box::new(move |calls| {
            let mut bytes = [0; 16];
            let mut sum = 0u64;
            let mut value = 1i32;
            let begin = cpu_time();
            for index in 0..count {
                value = value.wrapping_mul(-1_640_531_535).wrapping_add(index);
                let written = (calls.decimal)(value >> (index & 31), &mut bytes);
                let last = bytes[written.count as usize - 1];
                sum = sum
                    .wrapping_mul(31)
                    .wrapping_add(written.count * 256 + u64::from(last));
            }
            let time = cpu_time() - begin;
            Run {
                time,
                left: vec![sum],
            }
        }),
    }
}

fn rows() -> Vec<Row> {
    let usual = |text: &str, cycles| Grants {
        parameters: programs::USUAL,
        text: text.into(),
        input: Vec::new(),
        cycles,
        count: 1,
        restart: false,
        output: 64,
    };
    vec![
        grants(
            "loop of ADD SUB MUL NEG ABS, one grant of 10^9",
            usual(programs::ARITHMETIC, 1_000_000_000),
        ),
        grants(
            "loop of bitwise operations and shifts, 3·10^8",
            usual(programs::BITS, 300_000_000),
        ),
        grants(
            "loop of Boolean operations and comparisons, 3·10^8",
            usual(programs::LOGIC, 300_000_000),
        ),
        grants(
            "loop of MOV and SET between registers and cells, 3·10^8",
            usual(programs::MOVES, 300_000_000),
        ),
        grants(
            "greatest common divisors, one grant of 10^9",
            usual(programs::GCD, 1_000_000_000),
        ),
        grants(
            "search for primes, one grant of 10^9",
            usual(programs::PRIMES, 1_000_000_000),
        ),
        grants(
            "counting loop with compare and jump, one grant of 10^9",
            usual(programs::COUNTING, 1_000_000_000),
        ),
        grants(
            "recursion with computed returns, one grant of 10^9",
            usual(programs::RECURSION, 1_000_000_000),
        ),
        grants(
            "loop of PUSH and POP, one grant of 10^9",
            usual(programs::STACK, 1_000_000_000),
        ),
        grants(
            "DUMP_DATA_MEM at S = 4096, 400 grants of 40 dumps",
            Grants {
                parameters: Parameters {
                    t: 16,
                    ..programs::LARGE
                },
                text: "SET DM1 5\nDUMP_DATA_MEM\nJMP 1".into(),
                input: Vec::new(),
                cycles: 40 * (51 * 4096 + 4),
                count: 400,
                restart: false,
                output: 40 * 4096,
            },
        ),
        grants(
            "grants of 100 cycles at T = S = 4096, 20,000 of them",
            Grants {
                parameters: programs::LARGE,
                text: programs::lines_of_60_kb() + "JMP 0",
                input: b"5 ".repeat(30_000),
                cycles: 100,
                count: 20_000,
                restart: false,
                output: 8,
            },
        ),
        grants(
            "grants of 100 cycles on a small machine, 1,000,000 of them",
            Grants {
                parameters: Parameters {
                    t: 16,
                    s: 16,
                    b: 8,
                    ..programs::USUAL
                },
                count: 1_000_000,
                ..usual(programs::COUNTING, 100)
            },
        ),
        grants(
            "IN over 65,536 bytes of numbers, 100 times",
            Grants {
                input: programs::numbers(65_536),
                count: 100,
                restart: true,
                ..usual("IN R0\nJMP 0", 100_000_000)
            },
        ),
        grants(
            "IN of one number of 65,536 digits, 1,000 times",
            Grants {
                input: vec![b'0'; 65_536],
                count: 1_000,
                restart: true,
                ..usual("IN R0\nJMP 0", 100_000_000)
            },
        ),
        loads(
            "load of 60 KB of typical lines, 300 times",
            programs::lines_of_60_kb(),
            300,
        ),
        loads(
            "load of 60 KB with long comments and blanks, 300 times",
            programs::comments_of_60_kb(),
            300,
        ),
        decimals("decimal of 10,000,000 values", 10_000_000),
    ]
}

fn main() -> ExitCode {
    // `--once` runs each row once; another word keeps only the rows that have it in their name.
    let mut repetitions = REPETITIONS;
    let mut word = String::new();
    for argument in std::env::args().skip(1) {
        if argument == "--once" {
            repetitions = 1;
        } else {
            word = argument;
        }
    }
    println!("| row | ours, ms | model, ms | ratio |");
    println!("|---|---:|---:|---:|");
    let mut equal = true;
    for row in rows().into_iter().filter(|row| row.name.contains(&word)) {
        let (mut ours, mut plain) = (Duration::MAX, Duration::MAX);
        for _ in 0..repetitions {
            let (first, second) = ((row.run)(&LIBRARY), (row.run)(&MODEL));
            if first.left != second.left {
                equal = false;
                println!("| {}: THE RESULTS DIFFER | | | |", row.name);
            }
            ours = ours.min(first.time);
            plain = plain.min(second.time);
        }
        println!(
            "| {} | {:.2} | {:.2} | {:.2} |",
            row.name,
            ours.as_secs_f64() * 1e3,
            plain.as_secs_f64() * 1e3,
            plain.as_secs_f64() / ours.as_secs_f64()
        );
    }
    println!();
    println!(
        "Ratio: the model's time divided by ours; from 1.00 on the library is at least as fast as the plain model."
    );
    println!(
        "Best of {repetitions} runs each, library and model in turn, in one thread; times are the thread's time on the processor."
    );
    println!(
        "Buffers are allocated and zeroed before each run, outside the time taken; within a run nobody clears them, \
         neither the image before a further load nor the output slice before a further grant."
    );
    if equal {
        println!("All replies and the final contents of all buffers were equal on both sides.");
        ExitCode::SUCCESS
    } else {
        println!("SOME RESULTS WERE NOT EQUAL.");
        ExitCode::FAILURE
    }
}
