//! The 55 instructions: their names, numbers and the forms that each argument may have.

use crate::Parameters;

/// What an argument's place allows. A special register may stand where a register is read only.
#[derive(Clone, Copy, Debug, PartialEq, Eq)]
pub enum Form {
    /// A register that is read.
    Read,
    /// A register that is written, and perhaps read before.
    Write,
    /// A register or direct cell that is read.
    ReadAny,
    /// A register or direct cell that is written.
    WriteAny,
    /// A number.
    Number,
    /// A jump target: a number or a register that is read.
    Target,
}

/// An argument as its text or word gives it, before its place and its limits are looked at.
#[derive(Clone, Copy, Debug, PartialEq, Eq)]
pub enum Argument {
    Register(u64),
    /// IAR, IRCR or SHR by the number that the image gives it.
    Special(u32),
    Direct(u64),
    Number(i64),
}

pub const IAR: u32 = 256;
pub const IRCR: u32 = 257;
pub const SHR: u32 = 258;

pub const REGISTER: u32 = 1;
pub const DIRECT: u32 = 2;
pub const NUMBER: u32 = 3;

/// The low 30 bits of a word.
pub const LOW: u32 = 0x3FFF_FFFF;

pub struct Instruction {
    pub name: &'static str,
    pub forms: &'static [Form],
}

const fn row(name: &'static str, forms: &'static [Form]) -> Instruction {
    Instruction { name, forms }
}

const NONE: &[Form] = &[];
const READ_WRITE: &[Form] = &[Form::Read, Form::Write];
const READ_READ_WRITE: &[Form] = &[Form::Read, Form::Read, Form::Write];
const TARGET_READ: &[Form] = &[Form::Target, Form::Read];
const TARGET_READ_READ: &[Form] = &[Form::Target, Form::Read, Form::Read];

/// The instruction with number i stands at i - 1.
pub const INSTRUCTIONS: [Instruction; 55] = [
    row("CLEAR_REG", NONE),
    row("CLEAR_DATA_MEM", NONE),
    row("DUMP_REG", NONE),
    row("DUMP_DATA_MEM", NONE),
    row("IN", &[Form::WriteAny]),
    row("OUT", &[Form::ReadAny]),
    row("MOV", &[Form::ReadAny, Form::WriteAny]),
    row("SET", &[Form::WriteAny, Form::Number]),
    row("PUSH", &[Form::ReadAny]),
    row("POP", &[Form::WriteAny]),
    row("SETT", &[Form::Write]),
    row("SETF", &[Form::Write]),
    row("NOT", READ_WRITE),
    row("AND", READ_READ_WRITE),
    row("OR", READ_READ_WRITE),
    row("XOR", READ_READ_WRITE),
    row("NAND", READ_READ_WRITE),
    row("NOR", READ_READ_WRITE),
    row("NEG", READ_WRITE),
    row("ABS", READ_WRITE),
    row("ADD", READ_READ_WRITE),
    row("SUB", READ_READ_WRITE),
    row("MUL", READ_READ_WRITE),
    row("DIV", READ_READ_WRITE),
    row("MOD", READ_READ_WRITE),
    row("INC", &[Form::Write, Form::Number]),
    row("DEC", &[Form::Write, Form::Number]),
    row("CMPEQ", READ_READ_WRITE),
    row("CMPNEQ", READ_READ_WRITE),
    row("CMPLT", READ_READ_WRITE),
    row("CMPGT", READ_READ_WRITE),
    row("CMPLE", READ_READ_WRITE),
    row("CMPGE", READ_READ_WRITE),
    row("JMP", &[Form::Target]),
    row("JMPT", TARGET_READ),
    row("JMPF", TARGET_READ),
    row("JMPEQ", TARGET_READ_READ),
    row("JMPNEQ", TARGET_READ_READ),
    row("JMPLT", TARGET_READ_READ),
    row("JMPGT", TARGET_READ_READ),
    row("JMPLE", TARGET_READ_READ),
    row("JMPGE", TARGET_READ_READ),
    row("SKIP", NONE),
    row("NOP", NONE),
    row("RNOT", READ_WRITE),
    row("RAND", READ_READ_WRITE),
    row("ROR", READ_READ_WRITE),
    row("RXOR", READ_READ_WRITE),
    row("RNAND", READ_READ_WRITE),
    row("RNOR", READ_READ_WRITE),
    row("RSL", &[Form::Write]),
    row("ASL", &[Form::Write]),
    row("RSR", &[Form::Write]),
    row("ASR", &[Form::Write]),
    row("DIVR", &[Form::Write, Form::Read, Form::Write]),
];

pub const CLEAR_REG: u32 = 1;
pub const CLEAR_DATA_MEM: u32 = 2;
pub const DUMP_REG: u32 = 3;
pub const DUMP_DATA_MEM: u32 = 4;
pub const IN: u32 = 5;
pub const OUT: u32 = 6;
pub const MOV: u32 = 7;
pub const SET: u32 = 8;
pub const PUSH: u32 = 9;
pub const POP: u32 = 10;
pub const SETT: u32 = 11;
pub const SETF: u32 = 12;
pub const NOT: u32 = 13;
pub const AND: u32 = 14;
pub const OR: u32 = 15;
pub const XOR: u32 = 16;
pub const NAND: u32 = 17;
pub const NOR: u32 = 18;
pub const NEG: u32 = 19;
pub const ABS: u32 = 20;
pub const ADD: u32 = 21;
pub const SUB: u32 = 22;
pub const MUL: u32 = 23;
pub const DIV: u32 = 24;
pub const MOD: u32 = 25;
pub const INC: u32 = 26;
pub const DEC: u32 = 27;
pub const CMPEQ: u32 = 28;
pub const CMPNEQ: u32 = 29;
pub const CMPLT: u32 = 30;
pub const CMPGT: u32 = 31;
pub const CMPLE: u32 = 32;
pub const CMPGE: u32 = 33;
pub const JMP: u32 = 34;
pub const JMPT: u32 = 35;
pub const JMPF: u32 = 36;
pub const JMPEQ: u32 = 37;
pub const JMPNEQ: u32 = 38;
pub const JMPLT: u32 = 39;
pub const JMPGT: u32 = 40;
pub const JMPLE: u32 = 41;
pub const JMPGE: u32 = 42;
pub const SKIP: u32 = 43;
pub const NOP: u32 = 44;
pub const RNOT: u32 = 45;
pub const RAND: u32 = 46;
pub const ROR: u32 = 47;
pub const RXOR: u32 = 48;
pub const RNAND: u32 = 49;
pub const RNOR: u32 = 50;
pub const RSL: u32 = 51;
pub const ASL: u32 = 52;
pub const RSR: u32 = 53;
pub const ASR: u32 = 54;
pub const DIVR: u32 = 55;

/// The forms of the instruction with this number, if there is one.
pub fn forms(number: u32) -> Option<&'static [Form]> {
    let index = usize::try_from(number).ok()?.checked_sub(1)?;
    Some(INSTRUCTIONS.get(index)?.forms)
}

/// Checks 13 and 14 of one argument, and its word.
pub fn encode(argument: Argument, form: Form, parameters: Parameters) -> Result<u32, u32> {
    let allowed = match argument {
        Argument::Register(_) => form != Form::Number,
        Argument::Special(_) => matches!(form, Form::Read | Form::ReadAny | Form::Target),
        Argument::Direct(_) => matches!(form, Form::ReadAny | Form::WriteAny),
        Argument::Number(_) => matches!(form, Form::Number | Form::Target),
    };
    if !allowed {
        return Err(13);
    }
    let m = i64::from(parameters.m());
    match argument {
        Argument::Register(index) if index < parameters.n.into() => {
            Ok(REGISTER << 30 | index as u32)
        }
        Argument::Special(index) => Ok(REGISTER << 30 | index),
        Argument::Direct(index) if index < parameters.b.into() => Ok(DIRECT << 30 | index as u32),
        Argument::Number(number) if (-m..m).contains(&number) => {
            Ok(NUMBER << 30 | (number as u32 & LOW))
        }
        _ => Err(14),
    }
}

/// Check 19 of a cell whose arguments are right: DIVR writes two registers, which may not be one.
pub fn same_target(cell: &[u32]) -> bool {
    cell[0] == DIVR && cell[1] == cell[3]
}

/// The number in the low 30 bits of a word, in two's complement.
pub fn number(word: u32) -> i32 {
    ((word << 2) as i32) >> 2
}
