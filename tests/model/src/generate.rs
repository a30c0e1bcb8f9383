//! Makes cases from a seed: programs that run, damaged texts, unfit parameters, images, records, memories and slices.

use model::instructions::*;
use model::instructions::{Argument, Form, INSTRUCTIONS, encode};
use model::record;
use model::{Parameters, RECORD_LENGTH, ending};

use crate::case::{Case, Edit, Grant, Load, Start};
use crate::random::Random;

/// One instruction with its arguments.
#[derive(Clone, Debug)]
struct Line {
    instruction: u32,
    arguments: Vec<Argument>,
}

pub fn case(seed: u64, number: u64) -> Case {
    let random = &mut Random::of_case(seed, number);
    match random.below(100) {
        0..45 => running(random),
        45..70 => operands(random),
        70..90 => words(random),
        90..98 => damaged(random),
        _ => large(random),
    }
}

/// A program that runs, with grants, refused calls among them.
fn running(random: &mut Random) -> Case {
    let parameters = parameters(random);
    let program = match random.below(14) {
        0..4 => repaired(random, parameters),
        4..6 => mixing(random, parameters),
        6..9 => known(random, parameters),
        9..11 => stacking(random, parameters),
        11..13 => dividing(random, parameters),
        _ => random_lines(random, parameters),
    };
    let text = spell(random, &program);
    let input = input(random, parameters);
    with_calls(random, parameters, text, input, &program)
}

/// A short program on values at the ends of the range, so that each return code occurs.
fn operands(random: &mut Random) -> Case {
    let mut parameters = parameters(random);
    parameters.t = parameters.t.max(7).min(largest(parameters.k));
    parameters.n = parameters.n.max(3);
    let mut program = Vec::new();
    let registers = parameters.n.min(3);
    for register in 0..registers {
        let m = i64::from(parameters.m());
        let value = match random.below(4) {
            0 => -random.within(0, 1),
            1 => random.within(0, i64::from(parameters.t)),
            2 => random.pick(&[-m, m - 1]),
            _ => number_in_range(random, parameters),
        };
        program.push(Line {
            instruction: SET,
            arguments: vec![Argument::Register(register.into()), Argument::Number(value)],
        });
    }
    for _ in 0..random.within(1, i64::from(parameters.t.min(9)) - 3) {
        let instruction = instruction(random);
        program.push(line(random, instruction, parameters, parameters.t.into()));
    }
    let text = spell(random, &program);
    let input = input(random, parameters);
    let mut case = with_calls(random, parameters, text, input, &program);
    if random.chance(70) {
        case.grants = vec![Grant {
            cycles: 50_000,
            output_length: 64 + 4 * parameters.s as usize,
            edits: Vec::new(),
            restore: false,
        }];
    }
    case
}

/// Few lines of words that are arguments or nearly so.
fn words(random: &mut Random) -> Case {
    let parameters = parameters(random);
    let count = random.within(1, 4);
    let mut text = Vec::new();
    for index in 0..count {
        let plain = random.chance(if index + 1 < count { 92 } else { 30 });
        let instruction = if random.chance(10) {
            DIVR
        } else {
            instruction(random)
        };
        let line = line(random, instruction, parameters, parameters.t.into());
        let mut words = spell_words(random, &line, Style::random);
        if !plain {
            for word in &mut words[1..] {
                if random.chance(50) {
                    *word = odd_word(random, parameters);
                }
            }
            if line.instruction == DIVR && random.chance(40) {
                let beyond = format!("R{}", parameters.n).into_bytes();
                match random.below(4) {
                    0 => words[1] = beyond,
                    1 => words[2] = beyond,
                    _ => (),
                }
                words[3] = words[1].clone();
            }
            match random.below(12) {
                0 => {
                    let word = odd_word(random, parameters);
                    words.push(word);
                }
                1 if words.len() > 1 => {
                    words.pop();
                }
                2 => words[0] = odd_name(random),
                _ => (),
            }
        }
        join(random, &words, &mut text);
        if index + 1 < count || random.chance(70) {
            text.push(b'\n');
        }
    }
    let input = input(random, parameters);
    with_calls(random, parameters, text, input, &[])
}

/// A program's text with some bytes changed.
fn damaged(random: &mut Random) -> Case {
    let mut case = running(random);
    let mut text = std::mem::take(&mut case.loads.last_mut().expect("a case has a load").text);
    for _ in 0..random.within(1, 3) {
        damage(random, &mut text);
    }
    case.loads.last_mut().expect("a case has a load").text = text;
    case
}

/// Large machines, texts and inputs at and above the limits, and more lines than cells.
fn large(random: &mut Random) -> Case {
    let mut parameters = parameters(random);
    parameters.k = random.within(13, 30) as u32;
    let limit = largest(parameters.k);
    parameters.t = random.pick(&[limit, limit - 1, 300]);
    parameters.s = random.pick(&[limit, limit - 1, 200]);
    parameters.b = random.within(0, parameters.s.into()) as u32;
    let program = mixing(random, parameters);
    let mut text = spell(random, &program);
    let filling = random.pick(b" \n#,0\rx");
    match random.below(4) {
        0 => {
            let length = random.within(65_534, 65_538) as usize;
            text.resize(length.max(text.len()), filling);
        }
        1 => {
            let lines = text.iter().filter(|byte| **byte == b'\n').count();
            let missing = (i64::from(parameters.t) - lines as i64).max(0) + random.within(-2, 2);
            text.extend(vec![b'\n'; missing.max(0) as usize]);
        }
        _ => (),
    }
    let mut input = input(random, parameters);
    if random.chance(50) {
        let length = random.within(65_534, 65_538) as usize;
        let filling = random.pick(b" 90-");
        input.resize(length, filling);
        if random.chance(50) {
            input.rotate_right(3);
        }
    }
    with_calls(random, parameters, text, input, &program)
}

fn largest(k: u32) -> u32 {
    ((1u32 << (k - 1)) - 1).min(4096)
}

fn parameters(random: &mut Random) -> Parameters {
    let k = match random.below(10) {
        0..4 => random.within(8, 9),
        4..6 => random.within(8, 16),
        6 => 30,
        _ => random.within(8, 30),
    } as u32;
    let n = match random.below(20) {
        0..14 => random.within(1, 6),
        14..18 => random.within(4, 40),
        18 => 256,
        _ => random.within(250, 256),
    } as u32;
    let size = |random: &mut Random, usual: i64| {
        let limit = i64::from(largest(k));
        match random.below(100) {
            0..80 => random.within(1, usual.min(limit)),
            80..90 => random.within(1, limit.min(127)),
            90..96 => limit.min(127),
            96..98 => limit,
            _ => random.within(1, limit),
        }
    };
    let s = size(random, 12);
    let t = size(random, 30);
    let b = match random.below(5) {
        0 => 0,
        1 => s,
        _ => random.within(0, s),
    };
    Parameters {
        k,
        n,
        s: s as u32,
        b: b as u32,
        t: t as u32,
    }
}

fn number_in_range(random: &mut Random, parameters: Parameters) -> i64 {
    let m = i64::from(parameters.m());
    match random.below(10) {
        0..4 => random.within(-3, 12),
        4..6 => random.pick(&[-m, m - 1, 1 - m, m - 2, m / 2, -m / 2]),
        6..8 => random.within(-1, 1),
        _ => random.within(-m, m - 1),
    }
}

fn register(random: &mut Random, parameters: Parameters) -> Argument {
    let n = i64::from(parameters.n);
    let bound = if random.chance(85) { n.min(4) } else { n };
    Argument::Register(random.within(0, bound - 1) as u64)
}

fn special(random: &mut Random) -> Argument {
    Argument::Special(random.pick(&[IAR, IRCR, SHR]))
}

fn direct(random: &mut Random, parameters: Parameters) -> Argument {
    match parameters.b {
        0 => register(random, parameters),
        b => Argument::Direct(random.below(b.into())),
    }
}

fn argument(random: &mut Random, form: Form, parameters: Parameters, lines: i64) -> Argument {
    let any = random.below(10);
    match form {
        Form::Read if any == 0 => special(random),
        Form::Read | Form::Write => register(random, parameters),
        Form::ReadAny if any < 2 => special(random),
        Form::ReadAny | Form::WriteAny if any < 5 => direct(random, parameters),
        Form::ReadAny | Form::WriteAny => register(random, parameters),
        Form::Number => Argument::Number(number_in_range(random, parameters)),
        Form::Target if any == 0 => special(random),
        Form::Target if any == 1 => register(random, parameters),
        Form::Target if any == 2 => Argument::Number(number_in_range(random, parameters)),
        Form::Target => {
            let last = lines.min(i64::from(parameters.t) - 1);
            Argument::Number(random.within(0, last))
        }
    }
}

fn instruction(random: &mut Random) -> u32 {
    random.within(1, INSTRUCTIONS.len() as i64) as u32
}

fn line(random: &mut Random, instruction: u32, parameters: Parameters, lines: i64) -> Line {
    // Few DIVR have one register for both targets, which a machine of one register has no other way to write.
    let (instruction, parted) = match (instruction, parameters.n) {
        (DIVR, 1) if random.chance(90) => (DIV, false),
        (DIVR, n) => (DIVR, n > 1 && random.chance(93)),
        _ => (instruction, false),
    };
    let forms = forms(instruction).expect("the number of an instruction");
    let mut arguments: Vec<Argument> = forms
        .iter()
        .map(|form| argument(random, *form, parameters, lines))
        .collect();
    while parted && arguments[2] == arguments[0] {
        arguments[2] = register(random, parameters);
    }
    Line {
        instruction,
        arguments,
    }
}

fn random_lines(random: &mut Random, parameters: Parameters) -> Vec<Line> {
    let most = i64::from(parameters.t.min(30));
    let least = if random.chance(3) { 0 } else { 1 };
    let count = random.within(least, most);
    (0..count)
        .map(|_| {
            let instruction = instruction(random);
            line(random, instruction, parameters, count)
        })
        .collect()
}

/// A random program whose failing lines are replaced until it runs on.
fn repaired(random: &mut Random, parameters: Parameters) -> Vec<Line> {
    let mut program = random_lines(random, parameters);
    let count = program.len() as i64;
    for _ in 0..12 {
        let Some(failed) = failing(&program, parameters) else {
            break;
        };
        let instruction = instruction(random);
        program[failed] = line(random, instruction, parameters, count);
    }
    program
}

/// The index of the line that fails when a program runs for some cycles without input.
fn failing(program: &[Line], parameters: Parameters) -> Option<usize> {
    let mut image = vec![0; 4 * parameters.t as usize];
    for (cell, line) in image.chunks_exact_mut(4).zip(program) {
        cell[0] = line.instruction;
        let forms = forms(line.instruction)?;
        for ((word, argument), form) in cell[1..].iter_mut().zip(&line.arguments).zip(forms) {
            *word = encode(*argument, *form, parameters).ok()?;
        }
    }
    let mut registers = vec![0; parameters.n as usize];
    let mut cells = vec![0; parameters.s as usize];
    let mut state = [0; RECORD_LENGTH];
    let mut output = vec![0; 2 * (registers.len() + cells.len()) + 20];
    model::start(parameters, &image, &mut registers, &mut cells, &mut state);
    let input = b"1 0 -1 2 3 4 5 6 7 0 0 0 0 0 0 0";
    let reply = model::grant(
        &mut state,
        3000,
        &image,
        input,
        &mut registers,
        &mut cells,
        &mut output,
    );
    (reply.ending == ending::FAILED).then(|| state[record::IAR] as usize)
}

/// An endless loop of instructions that cannot fail.
fn mixing(random: &mut Random, parameters: Parameters) -> Vec<Line> {
    const SAFE: [u32; 25] = [
        SETT, SETF, RNOT, RAND, ROR, RXOR, RNAND, RNOR, RSL, ASL, RSR, ASR, MOV, MOV, SET, SET,
        CMPEQ, CMPNEQ, CMPLT, CMPGT, CMPLE, CMPGE, NOP, OUT, CLEAR_REG,
    ];
    const RARE: [u32; 3] = [DUMP_REG, DUMP_DATA_MEM, CLEAR_DATA_MEM];
    let most = i64::from(parameters.t.min(25));
    let mut program: Vec<Line> = (0..random.within(0, most - 1))
        .map(|_| {
            let instruction = if random.chance(5) {
                random.pick(&RARE)
            } else {
                random.pick(&SAFE)
            };
            line(random, instruction, parameters, most)
        })
        .collect();
    program.push(Line {
        instruction: JMP,
        arguments: vec![Argument::Number(0)],
    });
    program
}

/// A program of PUSH and POP that fills the stack and empties it, over and over or once; few of them fail on the first way.
fn stacking(random: &mut Random, parameters: Parameters) -> Vec<Line> {
    let room = parameters.s - parameters.b;
    let most = i64::from(parameters.t.min(40));
    let mut height = 0;
    let mut program: Vec<Line> = (0..random.within(1, most))
        .map(|_| {
            let push = if random.chance(95) && (height == 0 || height == room) {
                height == 0
            } else {
                random.chance(55)
            };
            let instruction = if push { PUSH } else { POP };
            height = if push {
                room.min(height + 1)
            } else {
                height.saturating_sub(1)
            };
            line(random, instruction, parameters, most)
        })
        .collect();
    if random.chance(50) {
        program.pop();
        program.push(Line {
            instruction: JMP,
            arguments: vec![Argument::Number(0)],
        });
    }
    program
}

/// Registers at the ends of the range, and DIVR by one of its own targets, by another register or by a special one.
fn dividing(random: &mut Random, parameters: Parameters) -> Vec<Line> {
    let m = i64::from(parameters.m());
    let registers = parameters.n.min(3);
    let mut program: Vec<Line> = (0..registers)
        .map(|register| Line {
            instruction: SET,
            arguments: vec![
                Argument::Register(register.into()),
                Argument::Number(match random.below(6) {
                    0 | 1 => -m,
                    2 => -1,
                    3 => random.within(-1, 1),
                    _ => number_in_range(random, parameters),
                }),
            ],
        })
        .collect();
    for _ in 0..random.within(1, 4) {
        let mut line = line(random, DIVR, parameters, 1);
        if let [first, second, third] = &mut line.arguments[..] {
            match random.below(4) {
                0 => *second = *first,
                1 => *second = *third,
                2 => *second = special(random),
                _ => (),
            }
        }
        program.push(line);
    }
    program.truncate(parameters.t as usize);
    program
}

/// A program as people write them, if the machine has room for it: loops, recursion, stacks, inputs and dumps.
fn known(random: &mut Random, parameters: Parameters) -> Vec<Line> {
    let m = i64::from(parameters.m());
    let count = random.within(1, 20.min(m - 1));
    let step = random.within(1, 3);
    let text = match random.below(11) {
        // A counting loop.
        0 => format!("SET R0 0\nSET R1 {count}\nINC R0 {step}\nOUT R0\nJMPLT 2 R0 R1\nDUMP_REG"),
        // The greatest common divisor of two inputs.
        1 => "IN R0\nIN R1\nSET R2 0\nJMPEQ 8 R1 R2\nMOD R0 R1 R2\nMOV R1 R0\nMOV R2 R1\nJMP 2\nOUT R0".into(),
        // The recursion of the course paper.
        2 => format!(
            "NOP\nSET R0 {count}\nPUSH IAR\nJMP 16\nNOP\nSET R0 {step}\nPUSH IAR\nJMP 16\nNOP\nJMP 28\nNOP\nOUT R0\n\
             POP R1\nINC R1 2\nJMP R1\nNOP\nNOP\nPUSH IAR\nJMP 11\nSET R1 0\nJMPEQ 24 R0 R1\nDEC R0 1\nPUSH IAR\n\
             JMP 16\nNOP\nPOP R1\nINC R1 2\nJMP R1"
        ),
        // The sum of the inputs.
        3 => "SET R0 0\nIN R1\nADD R0 R1 R0\nOUT R0\nJMP 1".into(),
        // A stack that fills up, or is emptied again.
        4 => format!("SET R0 {count}\nSET R1 0\nPUSH R0\nDEC R0 1\nJMPGT 2 R0 R1\nPOP R2\nOUT R2\nJMP 5"),
        5 => "PUSH SHR\nOUT SHR\nDUMP_DATA_MEM\nJMP 0".into(),
        // Division of all numbers by one another.
        6 => format!(
            "SET R0 {}\nSET R1 -{count}\nDIV R0 R1 R2\nOUT R2\nMOD R0 R1 R2\nOUT R2\nINC R1 1\nJMP 2",
            random.within(-m, m - 1)
        ),
        // Boxes and loose pieces of the inputs.
        7 => format!("SET R1 {count}\nIN R0\nDIVR R0 R1 R2\nOUT R2\nOUT R0\nJMP 1"),
        // The digits of a number, the last one first.
        8 => format!(
            "SET R0 {}\nSET R1 10\nDIVR R0 R1 R2\nOUT R0\nMOV R2 R0\nJMPNEQ 2 R0 R3",
            random.within(0, m - 1)
        ),
        // Doubling and squaring up to the overflow.
        9 => "SET R0 1\nSET R1 -3\nADD R0 R0 R0\nOUT R0\nMUL R1 R1 R2\nSUB R1 R0 R1\nOUT R1\nJMP 2".into(),
        // Prime numbers by trial division.
        _ => "SET R0 2\nSET R1 2\nSET R2 0\nJMPEQ 8 R0 R1\nMOD R0 R1 R3\nJMPEQ 9 R3 R2\nINC R1 1\nJMP 3\nOUT R0\n\
              INC R0 1\nJMP 1"
            .into(),
    };
    let program: Option<Vec<Line>> = text.lines().map(|line| read(line, parameters)).collect();
    match program {
        Some(program) if program.len() <= parameters.t as usize => program,
        _ => mixing(random, parameters),
    }
}

/// A line of `known`, if it fits the parameters.
fn read(text: &str, parameters: Parameters) -> Option<Line> {
    let mut words = text.split(' ');
    let name = words.next()?;
    let index = INSTRUCTIONS.iter().position(|row| row.name == name)?;
    let arguments: Vec<Argument> = words
        .map(|word| match word {
            "IAR" => Some(Argument::Special(IAR)),
            "SHR" => Some(Argument::Special(SHR)),
            _ => match word.strip_prefix('R') {
                Some(digits) => Some(Argument::Register(digits.parse().ok()?)),
                None => Some(Argument::Number(word.parse().ok()?)),
            },
        })
        .collect::<Option<_>>()?;
    let forms = INSTRUCTIONS[index].forms;
    for (argument, form) in arguments.iter().zip(forms) {
        encode(*argument, *form, parameters).ok()?;
    }
    Some(Line {
        instruction: index as u32 + 1,
        arguments,
    })
}

/// How letters are written.
#[derive(Clone, Copy, PartialEq)]
enum Style {
    Upper,
    Lower,
    Mixed,
}

impl Style {
    fn random(random: &mut Random) -> Style {
        match random.below(4) {
            0 | 1 => Style::Upper,
            2 => Style::Lower,
            _ => Style::Mixed,
        }
    }

    fn write(self, random: &mut Random, word: &str) -> Vec<u8> {
        word.bytes()
            .map(|byte| match self {
                Style::Upper => byte.to_ascii_uppercase(),
                Style::Lower => byte.to_ascii_lowercase(),
                Style::Mixed if random.chance(50) => byte.to_ascii_lowercase(),
                Style::Mixed => byte.to_ascii_uppercase(),
            })
            .collect()
    }
}

fn zeros(random: &mut Random) -> String {
    match random.below(25) {
        0 => "0".repeat(random.within(1, 3) as usize),
        1 => "0".repeat(random.within(1, 40) as usize),
        _ => String::new(),
    }
}

fn spell_words(random: &mut Random, line: &Line, style: fn(&mut Random) -> Style) -> Vec<Vec<u8>> {
    let style = style(random);
    let name = INSTRUCTIONS[line.instruction as usize - 1].name;
    let mut words = vec![style.write(random, name)];
    for argument in &line.arguments {
        let zeros = zeros(random);
        let word = match argument {
            Argument::Register(index) => format!("R{zeros}{index}"),
            Argument::Direct(index) => format!("DM{zeros}{index}"),
            Argument::Special(IAR) => "IAR".into(),
            Argument::Special(IRCR) => "IRCR".into(),
            Argument::Special(_) => "SHR".into(),
            Argument::Number(number) if *number < 0 => format!("-{zeros}{}", -number),
            Argument::Number(number) if random.chance(5) => format!("+{zeros}{number}"),
            Argument::Number(0) if random.chance(20) => format!("-{zeros}0"),
            Argument::Number(number) => format!("{zeros}{number}"),
        };
        words.push(style.write(random, &word));
    }
    words
}

/// Puts words on a line between random separators, perhaps with a comment behind.
fn join(random: &mut Random, words: &[Vec<u8>], text: &mut Vec<u8>) {
    const SEPARATORS: [&[u8]; 8] = [b" ", b" ", b"\t", b",", b", ", b"  ", b"\r", b" ,,\t "];
    if random.chance(10) {
        text.extend_from_slice(random.pick(&SEPARATORS));
    }
    for (index, word) in words.iter().enumerate() {
        if index > 0 {
            let separator = if random.chance(70) {
                b" "
            } else {
                random.pick(&SEPARATORS)
            };
            text.extend_from_slice(separator);
        }
        text.extend_from_slice(word);
    }
    if random.chance(15) {
        text.extend_from_slice(random.pick(&SEPARATORS));
    }
    if random.chance(10) {
        text.push(random.pick(b"/#;"));
        let comments: [&[u8]; 5] = [
            b"",
            b"/ a comment",
            b" SET R0 1",
            b"\r ;",
            b"\xC3\xA9\0\x0C",
        ];
        text.extend_from_slice(random.pick(&comments));
    }
}

fn spell(random: &mut Random, program: &[Line]) -> Vec<u8> {
    let style: fn(&mut Random) -> Style = match random.below(3) {
        0 => |_| Style::Upper,
        1 => |_| Style::Lower,
        _ => Style::random,
    };
    let ends: &[u8] = if random.chance(15) { b"\r\n" } else { b"\n" };
    let mut text = Vec::new();
    for (index, line) in program.iter().enumerate() {
        if index > 0 {
            text.extend_from_slice(ends);
        }
        let words = match line.instruction {
            NOP if random.chance(50) => Vec::new(),
            _ => spell_words(random, line, style),
        };
        join(random, &words, &mut text);
    }
    if random.chance(60) {
        text.extend_from_slice(ends);
    }
    text
}

/// A word at the edge of what an argument may be.
fn odd_word(random: &mut Random, parameters: Parameters) -> Vec<u8> {
    const FIXED: [&[u8]; 58] = [
        b"R256",
        b"R257",
        b"R258",
        b"R259",
        b"R999",
        b"R",
        b"R-1",
        b"R+1",
        b"R 1",
        b"RR1",
        b"R1R",
        b"R1.",
        b"DM",
        b"DM-0",
        b"DM+0",
        b"D0",
        b"DMM0",
        b"IAR",
        b"IRCR",
        b"SHR",
        b"iar",
        b"Ircr",
        b"sHr",
        b"IARS",
        b"SH",
        b"PC",
        b"+",
        b"-",
        b"+-1",
        b"--1",
        b"1-",
        b"1+",
        b"0x1",
        b"1a",
        b"1.0",
        b"99999999999999999999",
        b"-99999999999999999999",
        b"4294967295",
        b"4294967296",
        b"-4294967296",
        b"18446744073709551615",
        b"18446744073709551616",
        b"18446744073709551617",
        b"R4294967296",
        b"R18446744073709551616",
        b"DM4294967296",
        b"DM18446744073709551616",
        b"-2147483648",
        b"2147483648",
        b"\x0C",
        b"\x0B",
        b"\0",
        b"\xEF\xBB\xBF1",
        b"1\xA0",
        b"5/2",
        b"R0;1",
        b"#",
        b"0",
    ];
    let Parameters { n, b, .. } = parameters;
    let m = i64::from(parameters.m());
    let zeros = zeros(random);
    match random.below(14) {
        0..6 => random.pick(&FIXED).to_vec(),
        6 => format!("R{zeros}{}", i64::from(n) - random.within(0, 1)).into_bytes(),
        7 => format!(
            "DM{zeros}{}",
            i64::from(b) - random.within(0, 1).min(b.into())
        )
        .into_bytes(),
        8 => format!("{}", m - random.within(0, 1)).into_bytes(),
        9 => format!("-{zeros}{}", m + random.within(0, 1)).into_bytes(),
        10 => format!("+{zeros}{}", m - random.within(0, 1)).into_bytes(),
        11 => format!(
            "{}R{}",
            if random.chance(20) { "+" } else { "" },
            random.below(n.into())
        )
        .into_bytes(),
        12 => format!("dm{zeros}{}", random.below(u64::from(b) + 1)).into_bytes(),
        _ => format!("{}", random.within(-m, m - 1)).into_bytes(),
    }
}

/// A word that is nearly an instruction's name.
fn odd_name(random: &mut Random) -> Vec<u8> {
    const FIXED: [&[u8]; 15] = [
        b"CMP",
        b"DIVMOD",
        b"CMPNE",
        b"JMPNE",
        b"JUMP",
        b"HALT",
        b"R0",
        b"5",
        b"CLEAR",
        b"CLEAR-REG",
        b"DUMP",
        b"N/OP",
        b"NOPE",
        b"S\x00ET",
        b"\xC4\xB1N",
    ];
    if random.chance(50) {
        return random.pick(&FIXED).to_vec();
    }
    let mut name = INSTRUCTIONS[random.index(INSTRUCTIONS.len())]
        .name
        .as_bytes()
        .to_vec();
    let index = random.index(name.len());
    match random.below(4) {
        0 => {
            name.pop();
        }
        1 => name.push(b'S'),
        // Also bytes that differ from a letter in the bit of its case alone.
        2 => name[index] ^= 1 << random.below(8),
        _ => name[index] = b'_',
    }
    name
}

fn damage(random: &mut Random, text: &mut Vec<u8>) {
    let odd = random.pick(b" \t\r\n,/#;RDMIS0159+-_\0\x0B\x0C\x80\xFF");
    let index = random.index(text.len() + 1);
    match random.below(6) {
        0 if index < text.len() => text[index] ^= 1 << random.below(8),
        1 if index < text.len() => text[index] = odd,
        2 if index < text.len() => {
            text.remove(index);
        }
        3 => {
            let end = (index + random.index(12)).min(text.len());
            let part = text[index..end].to_vec();
            text.splice(index..index, part);
        }
        4 => text.truncate(index),
        _ => text.insert(index, odd),
    }
}

/// An input of numbers in usual and odd spellings.
fn input(random: &mut Random, parameters: Parameters) -> Vec<u8> {
    const BLANKS: [&[u8]; 7] = [b" ", b" ", b"\n", b"\r\n", b"\t", b"  \n ", b"\r"];
    const ODD: [&[u8]; 20] = [
        b"-",
        b"+",
        b"+-1",
        b"1,2",
        b"1-",
        b"x",
        b"12a",
        b"0x10",
        b"\0",
        b"\x0B1",
        b"\x0C",
        b"R1",
        b"--5",
        b"\xFF",
        b"99999999999999999999",
        b"-99999999999999999999",
        b"4294967296",
        b"18446744073709551617",
        b"1.5",
        b"/",
    ];
    let m = i64::from(parameters.m());
    let mut input = Vec::new();
    if random.chance(20) {
        input.extend_from_slice(random.pick(&BLANKS));
    }
    let most = if random.chance(20) { 60 } else { 12 };
    for _ in 0..random.below(most) {
        let zeros = zeros(random);
        let word = match random.below(40) {
            0 | 1 => random.pick(&ODD).to_vec(),
            2 => format!("{}", m + random.within(-1, 1)).into_bytes(),
            3 => format!("-{zeros}{}", m + random.within(-1, 1)).into_bytes(),
            4..8 => format!("+{zeros}{}", random.within(0, m - 1)).into_bytes(),
            8..12 => format!("-{zeros}{}", random.within(0, 20)).into_bytes(),
            12..20 => format!("{}", random.within(-m, m - 1)).into_bytes(),
            _ => format!("{zeros}{}", random.within(0, 30)).into_bytes(),
        };
        input.extend_from_slice(&word);
        input.extend_from_slice(random.pick(&BLANKS));
    }
    if random.chance(50) {
        input.pop();
    }
    input
}

/// The calls over one text: usually loads, a start and grants that are accepted, with refused ones between them.
fn with_calls(
    random: &mut Random,
    parameters: Parameters,
    text: Vec<u8>,
    input: Vec<u8>,
    program: &[Line],
) -> Case {
    let image_length = 4 * parameters.t as usize;
    let mut case = Case {
        fill: random.next(),
        parameters,
        loads: Vec::new(),
        starts: Vec::new(),
        input,
        grants: Vec::new(),
        decimals: Vec::new(),
    };
    if random.chance(12) {
        let unfit = random.chance(70);
        case.loads.push(Load {
            parameters: if unfit {
                unfit_parameters(random, parameters)
            } else {
                parameters
            },
            text: text.clone(),
            image_length: if !unfit || random.chance(20) {
                odd_length(random, image_length)
            } else {
                image_length
            },
        });
    }
    case.loads.push(Load {
        parameters,
        text,
        image_length,
    });
    if random.chance(25) {
        let unfit = random.chance(40);
        let mut start = Start {
            parameters: if unfit {
                unfit_parameters(random, parameters)
            } else {
                parameters
            },
            edits: Vec::new(),
            restore: true,
        };
        for _ in 0..if unfit {
            random.below(2)
        } else {
            random.within(1, 2) as u64
        } {
            let edit = match random.below(6) {
                0 => Edit::ImageLength(odd_length(random, image_length)),
                1 => Edit::RegistersLength(odd_length(random, parameters.n as usize)),
                2 => Edit::CellsLength(odd_length(random, parameters.s as usize)),
                3 if random.chance(40) => Edit::RecordLength(odd_length(random, RECORD_LENGTH)),
                _ => image_edit(random, parameters, program.len()),
            };
            start.edits.push(edit);
        }
        case.starts.push(start);
    }
    case.starts.push(Start {
        parameters,
        edits: Vec::new(),
        restore: false,
    });
    for _ in 0..random.below(8) {
        let grant = grant(random, &case, program.len());
        case.grants.push(grant);
    }
    if random.chance(4) {
        near_the_end(random, &mut case);
    }
    for _ in 0..random.below(3) {
        let value = match random.below(6) {
            0 => random.pick(&[i32::MIN, i32::MAX, i32::MIN + 1, 0, -1, 1, 9, 10, -9, -10]),
            1 => {
                let ten = 10i32.pow(random.below(10) as u32);
                let near = ten.wrapping_add(random.within(-1, 1) as i32);
                if random.chance(50) { near } else { -near }
            }
            2 => random.within(-200, 200) as i32,
            _ => (random.next() as i32) >> random.below(32),
        };
        let length = if random.chance(60) {
            random.within(9, 20)
        } else {
            random.within(0, 20)
        };
        case.decimals.push((value, length as usize));
    }
    case
}

fn odd_length(random: &mut Random, length: usize) -> usize {
    match random.below(6) {
        0 => 0,
        1 => length * 2,
        2 => length + 1,
        3 => length + 4,
        4 => length.saturating_sub(4),
        _ => length.saturating_sub(1),
    }
}

/// Parameters of which one or two are at or beyond a limit.
fn unfit_parameters(random: &mut Random, parameters: Parameters) -> Parameters {
    const TOP: u32 = 1 << 31;
    const MAX: u32 = u32::MAX;
    let mut changed = parameters;
    let Parameters { k, n, s, b, t } = parameters;
    let m = 1u32 << (k - 1);
    for _ in 0..random.within(1, 2) {
        match random.below(5) {
            0 => {
                changed.k = random.pick(&[
                    0,
                    1,
                    7,
                    31,
                    32,
                    33,
                    64,
                    255,
                    MAX,
                    TOP,
                    k + 1,
                    k - 1,
                    k + 256,
                ])
            }
            1 => changed.n = random.pick(&[0, 257, MAX, n + 1, n + 256, n + TOP, n + 65_536]),
            2 => changed.s = random.pick(&[0, 4097, m, m - 1, MAX, s + 1, s + 65_536, s + TOP]),
            3 => changed.b = random.pick(&[s, s + 1, MAX, TOP, b + TOP, 4097, b + 1]),
            _ => changed.t = random.pick(&[0, 4097, m, m - 1, MAX, t + 1, t + TOP, t + (1 << 30)]),
        }
    }
    changed
}

/// A word of the image replaced by one at the edge of what is allowed.
fn image_edit(random: &mut Random, parameters: Parameters, lines: usize) -> Edit {
    let Parameters { n, b, t, .. } = parameters;
    let cell = match random.below(10) {
        0..8 if lines > 0 => random.index(lines),
        8 => lines,
        _ => random.index(t as usize),
    };
    let m = i64::from(parameters.m());
    let (place, word) = match random.below(12) {
        0 => (
            0,
            random.pick(&[
                0,
                54,
                55,
                56,
                63,
                64,
                0x4000_0001,
                0x8000_0001,
                0xC000_0001,
                u32::MAX,
            ]),
        ),
        1 => (0, instruction(random)),
        2 => (0, random.pick(&[DIVR, DIVR, ADD, MOD, OUT])),
        3 => (random.within(1, 3), 0),
        4 => (random.within(0, 3), random.next() as u32),
        5 => (random.within(1, 3), 1 << random.below(32)),
        6 | 7 => {
            let index = random.pick(&[0, n - 1, n, 255, 256, 257, 258, 259, 512, LOW]);
            (random.within(1, 3), REGISTER << 30 | index)
        }
        8 => {
            let index = random.pick(&[0, b.saturating_sub(1), b, b + 1, LOW]);
            (random.within(1, 2), DIRECT << 30 | index)
        }
        9 | 10 => {
            let number = random.pick(&[
                m,
                m - 1,
                -m,
                -m - 1,
                0,
                -1,
                2 * m - 1,
                1 << 29,
                (1 << 29) - 1,
            ]);
            (random.within(1, 2), NUMBER << 30 | (number as u32 & LOW))
        }
        _ => (random.within(1, 3), random.within(0, 300) as u32),
    };
    Edit::Word(4 * cell + place as usize, word)
}

/// A record's number at or beyond a bound.
fn record_edit(random: &mut Random, case: &Case) -> Edit {
    let Parameters { k, n, s, b, t } = case.parameters;
    let (k, n, s, b, t): (i64, i64, i64, i64, i64) =
        (k.into(), n.into(), s.into(), b.into(), t.into());
    let m = i64::from(case.parameters.m());
    let far = 1i64 << 32;
    let length = case.input.len() as i64;
    let all = 1_000_000_000_000_000;
    let field = random.index(RECORD_LENGTH);
    let usual: &[i64] = match field {
        record::K => &[7, 8, 30, 31, k - 1, k + 1, k + far, k - far, k + 256],
        record::N => &[0, 1, 256, 257, n - 1, n + 1, n + far, n - far, n + 65_536],
        record::S => &[0, 4096, 4097, m, m - 1, s - 1, s + 1, s + far, s - far],
        record::B => &[-1, 0, s, s + 1, b - 1, b + 1, b + far, b - far],
        record::T => &[0, 4096, 4097, m, m - 1, t - 1, t + 1, t + far, t - far],
        record::IAR => &[-1, 0, t, t + 1, t - 1, far, far + 1, t - far, t / 2],
        record::IRCR => &[-1, 0, 1, 2, 3, 4, far, far + 1, 256, 257],
        record::SHR | record::DEEPEST => {
            &[b - 2, b - 1, b, s - 1, s, far + s - 1, s - 1 - far, -2, -1]
        }
        record::PLACE => &[
            -1,
            0,
            length,
            length + 1,
            length / 2,
            far,
            far + length,
            65_536,
            65_537,
        ],
        record::GRANTED => &[-1, 0, all, all + 1, far, 1_000_000],
        _ => &[-1, 0, 1, all, all + 1, far],
    };
    let value = match random.below(12) {
        0 => i64::MIN,
        1 => i64::MAX,
        _ => random.pick(usual),
    };
    Edit::Record(field, value)
}

/// An SHR within its bounds, with a `deepest` at one of its own, beside one or between them.
fn stack_edits(random: &mut Random, parameters: Parameters) -> [Edit; 2] {
    let (s, b) = (i64::from(parameters.s), i64::from(parameters.b));
    let shr = random.within(b - 1, s - 1);
    let deepest = match random.below(6) {
        0 => shr - 1,
        1 => shr,
        2 => s - 1,
        3 => s,
        _ => random.within(shr, s - 1),
    };
    [
        Edit::Record(record::SHR, shr),
        Edit::Record(record::DEEPEST, deepest),
    ]
}

fn memory_edit(random: &mut Random, parameters: Parameters) -> Edit {
    let m = parameters.m();
    let value = random.pick(&[
        m,
        m - 1,
        -m,
        -m - 1,
        i32::MAX,
        i32::MIN,
        m + 1,
        2 * m - 1,
        0,
    ]);
    let index = |random: &mut Random, length: u32| match random.below(3) {
        0 => 0,
        1 => length as usize - 1,
        _ => random.index(length as usize),
    };
    if random.chance(50) {
        Edit::Register(index(random, parameters.n), value)
    } else {
        Edit::Cell(index(random, parameters.s), value)
    }
}

fn grant(random: &mut Random, case: &Case, lines: usize) -> Grant {
    let parameters = case.parameters;
    let cycles = match random.below(40) {
        0..5 => 0,
        5..15 => random.within(1, 15) as u64,
        15..26 => random.within(1, 300) as u64,
        26..36 => random.within(100, 8000) as u64,
        36 => random.pick(&[1_000_000_000, 999_999_999, 10_000_000]),
        37 => 1_000_000_001,
        38 => random.pick(&[u64::MAX, 1 << 63, (1 << 32) + 5, 1_000_000_000_000_000]),
        _ => random.next() >> random.below(64),
    };
    let whole = (parameters.n + parameters.s) as i64;
    let output_length = match random.below(10) {
        0 => 0,
        1..4 => random.within(1, 4),
        4..7 => random.within(1, whole + 3),
        7 => i64::from(random.pick(&[parameters.n, parameters.s])) - random.within(0, 1),
        _ => random.within(whole, 3 * whole + 40),
    };
    let mut grant = Grant {
        cycles,
        output_length: output_length as usize,
        edits: Vec::new(),
        restore: false,
    };
    if random.chance(4) {
        grant.edits.extend(stack_edits(random, parameters));
        grant.restore = random.chance(50);
    } else if random.chance(30) {
        for _ in 0..if random.chance(75) { 1 } else { 2 } {
            let image = 4 * parameters.t as usize;
            let edit = match random.below(24) {
                0..10 => record_edit(random, case),
                10..14 => memory_edit(random, parameters),
                14..19 => image_edit(random, parameters, lines),
                19 => Edit::RecordLength(odd_length(random, RECORD_LENGTH)),
                20 => Edit::RegistersLength(odd_length(random, parameters.n as usize)),
                21 => Edit::CellsLength(odd_length(random, parameters.s as usize)),
                22 => Edit::ImageLength(odd_length(random, image)),
                _ => Edit::InputLength(random.pick(&[0, 1, 65_536, 65_537, 70_000])),
            };
            grant.edits.push(edit);
        }
        grant.restore = random.chance(80);
    }
    grant
}

/// Grants that come near the most that all grants together may have, and beyond it.
fn near_the_end(random: &mut Random, case: &mut Case) {
    let all = 1_000_000_000_000_000i64;
    let left = random.within(0, 3000);
    let unspent = random.within(0, 200);
    let edits = vec![
        Edit::Record(record::GRANTED, all - left),
        Edit::Record(record::SPENT, all - left - unspent),
    ];
    let mut given = 0;
    for index in 0..random.within(2, 6) {
        let rest = left - given;
        let cycles = match random.below(5) {
            0 => rest,
            1 => rest + 1,
            2 => rest / 2,
            3 => 0,
            _ => random.within(0, 3000),
        };
        if cycles <= rest {
            given += cycles;
        }
        case.grants.push(Grant {
            cycles: cycles as u64,
            output_length: random.index(40),
            edits: if index == 0 {
                edits.clone()
            } else {
                Vec::new()
            },
            restore: false,
        });
    }
}
