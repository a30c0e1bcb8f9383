//! Grants: the machine's steps, their costs and how a grant ends.

use crate::instructions::*;
use crate::load::number as read_number;
use crate::start::check;
use crate::{
    MAX_BYTES, MAX_GRANT, MAX_GRANTED, Parameters, RECORD_LENGTH, ending, record, refusal,
};

/// The reply of `grant`; `refusal` is 0 where the grant was accepted.
#[derive(Clone, Copy, Debug, PartialEq, Eq)]
pub struct Granted {
    pub refusal: u32,
    pub ending: u32,
    pub values: u64,
    pub spent: u64,
}

/// Grants cycles to the machine of a record.
pub fn grant(
    record: &mut [i64],
    cycles: u64,
    image: &[u32],
    input: &[u8],
    registers: &mut [i32],
    cells: &mut [i32],
    output: &mut [i32],
) -> Granted {
    grant_watched(
        record,
        cycles,
        image,
        input,
        registers,
        cells,
        output,
        |_, _| (),
    )
}

/// A grant that tells each step's cell and return code.
#[allow(clippy::too_many_arguments)]
pub fn grant_watched(
    record: &mut [i64],
    cycles: u64,
    image: &[u32],
    input: &[u8],
    registers: &mut [i32],
    cells: &mut [i32],
    output: &mut [i32],
    watch: impl FnMut(&[u32], u32),
) -> Granted {
    let parameters = match accept(record, cycles, image, input, registers, cells) {
        Ok(parameters) => parameters,
        Err(refusal) => {
            return Granted {
                refusal,
                ending: 0,
                values: 0,
                spent: 0,
            };
        }
    };
    let before = record[record::SPENT];
    record[record::GRANTED] += cycles as i64;
    let mut machine = Machine {
        parameters,
        image,
        input,
        registers,
        cells,
        iar: record[record::IAR] as u32,
        ircr: record[record::IRCR] as u32,
        shr: record[record::SHR] as i32,
        place: record[record::PLACE] as usize,
        granted: record[record::GRANTED] as u64,
        spent: record[record::SPENT] as u64,
        deepest: record[record::DEEPEST] as i32,
    };
    let (ending, values) = machine.run(output, watch);
    record[record::IAR] = machine.iar.into();
    record[record::IRCR] = machine.ircr.into();
    record[record::SHR] = machine.shr.into();
    record[record::PLACE] = machine.place as i64;
    record[record::SPENT] = machine.spent as i64;
    record[record::DEEPEST] = machine.deepest.into();
    Granted {
        refusal: 0,
        ending,
        values: values as u64,
        spent: (record[record::SPENT] - before) as u64,
    }
}

/// Grant's checks, in their order.
fn accept(
    record: &[i64],
    cycles: u64,
    image: &[u32],
    input: &[u8],
    registers: &[i32],
    cells: &[i32],
) -> Result<Parameters, u32> {
    if record.len() != RECORD_LENGTH {
        return Err(refusal::RECORD_LENGTH);
    }
    let parameters = Parameters::checked(
        record[record::K],
        record[record::N],
        record[record::S],
        record[record::B],
        record[record::T],
    )?;
    check(parameters, image, registers, cells)?;
    let granted = record[record::GRANTED];
    let (shr, last) = (record[record::SHR], i64::from(parameters.s) - 1);
    let fits = (0..=i64::from(parameters.t)).contains(&record[record::IAR])
        && (0..=3).contains(&record[record::IRCR])
        && (i64::from(parameters.b) - 1..=last).contains(&shr)
        && (shr..=last).contains(&record[record::DEEPEST])
        && (0..=granted).contains(&record[record::SPENT])
        && (0..=MAX_GRANTED as i64).contains(&granted)
        && (0..=input.len() as i64).contains(&record[record::PLACE]);
    let range = -parameters.m()..parameters.m();
    if !fits
        || !registers
            .iter()
            .chain(cells)
            .all(|value| range.contains(value))
    {
        return Err(15);
    }
    if input.len() > MAX_BYTES {
        return Err(16);
    }
    if cycles > MAX_GRANT || granted as u64 + cycles > MAX_GRANTED {
        return Err(17);
    }
    Ok(parameters)
}

/// The cycles of an instruction, 0 where they depend on its arguments or the parameters.
const fn fixed_cost(head: u32) -> u8 {
    match head {
        SETT | SETF | NOT | NEG | ABS | RNOT | RSL | ASL | RSR | ASR | NOP => 1,
        AND | OR | XOR | NAND | NOR | RAND | ROR | RXOR | RNAND | RNOR => 2,
        CMPEQ..=CMPGE => 3,
        ADD | SUB | JMP | SKIP => 4,
        JMPT | JMPF | JMPEQ | JMPNEQ => 6,
        JMPLT | JMPGT => 7,
        JMPLE | JMPGE => 9,
        MUL => 10,
        INC | DEC => 14,
        DIV | MOD => 30,
        DIVR => 31,
        _ => 0,
    }
}

const FIXED_COSTS: [u8; INSTRUCTIONS.len() + 1] = {
    let mut costs = [0; INSTRUCTIONS.len() + 1];
    let mut head = 1;
    while head < costs.len() {
        costs[head] = fixed_cost(head as u32);
        head += 1;
    }
    costs
};

/// The cycles that a cell's instruction costs.
pub fn cost(cell: &[u32], parameters: Parameters) -> u64 {
    let fixed = FIXED_COSTS[cell[0] as usize];
    if fixed != 0 {
        return fixed.into();
    }
    let by_place = |register, direct| {
        if cell[1] >> 30 == DIRECT {
            direct
        } else {
            register
        }
    };
    match cell[0] {
        IN | OUT => by_place(51, 55),
        SET => by_place(11, 16),
        PUSH | POP => by_place(8, 12),
        MOV => match (cell[1] >> 30, cell[2] >> 30) {
            (DIRECT, DIRECT) => 10,
            (REGISTER, REGISTER) => 2,
            _ => 6,
        },
        CLEAR_REG => parameters.n.into(),
        CLEAR_DATA_MEM => 5 * u64::from(parameters.s),
        DUMP_REG => 51 * u64::from(parameters.n),
        DUMP_DATA_MEM => 51 * u64::from(parameters.s),
        _ => unreachable!("an image that passed check 10 has no other head"),
    }
}

/// The values that an instruction writes to the output.
fn values(head: u32, parameters: Parameters) -> usize {
    match head {
        OUT => 1,
        DUMP_REG => parameters.n as usize,
        DUMP_DATA_MEM => parameters.s as usize,
        _ => 0,
    }
}

/// The machine of one grant.
struct Machine<'a> {
    parameters: Parameters,
    image: &'a [u32],
    input: &'a [u8],
    registers: &'a mut [i32],
    cells: &'a mut [i32],
    iar: u32,
    ircr: u32,
    shr: i32,
    place: usize,
    granted: u64,
    spent: u64,
    /// The greatest SHR reached since start.
    deepest: i32,
}

impl Machine<'_> {
    /// Looks and steps until an ending holds; gives it with the number of values written.
    fn run(&mut self, output: &mut [i32], mut watch: impl FnMut(&[u32], u32)) -> (u32, usize) {
        let image = self.image;
        let mut written = 0;
        loop {
            if self.ircr != 0 {
                return (ending::FAILED, written);
            }
            if self.iar == self.parameters.t {
                return (ending::ENDED, written);
            }
            let first = 4 * self.iar as usize;
            let cell = &image[first..first + 4];
            if cell[0] == 0 {
                return (ending::ENDED, written);
            }
            let cost = cost(cell, self.parameters);
            if self.granted - self.spent < cost {
                return (ending::PAUSED, written);
            }
            let values = values(cell[0], self.parameters);
            if output.len() - written < values {
                return (ending::OUTPUT_FULL, written);
            }
            match self.step(cell, &mut output[written..]) {
                Ok(next) => self.iar = next,
                Err(code) => self.ircr = code,
            }
            watch(cell, self.ircr);
            self.spent += cost;
            self.deepest = self.deepest.max(self.shr);
            written += values;
        }
    }

    /// Takes one step: the cell to run next, or the return code of a step that failed and changed nothing.
    fn step(&mut self, cell: &[u32], output: &mut [i32]) -> Result<u32, u32> {
        let next = self.iar + 1;
        match cell[0] {
            CLEAR_REG => self.registers.fill(0),
            CLEAR_DATA_MEM => self.cells.fill(0),
            DUMP_REG => output[..self.registers.len()].copy_from_slice(self.registers),
            DUMP_DATA_MEM => output[..self.cells.len()].copy_from_slice(self.cells),
            IN => {
                let (value, place) = self.read()?;
                self.set(cell[1], value);
                self.place = place;
            }
            OUT => output[0] = self.get(cell[1]),
            MOV => self.set(cell[2], self.get(cell[1])),
            SET => self.set(cell[1], number(cell[2])),
            PUSH => {
                if self.shr + 1 == self.parameters.s as i32 {
                    return Err(1);
                }
                // SHR rises before the source is read: PUSH SHR pushes the raised value.
                self.shr += 1;
                self.cells[self.shr as usize] = self.get(cell[1]);
            }
            POP => {
                if self.shr == self.parameters.b as i32 - 1 {
                    return Err(1);
                }
                self.set(cell[1], self.cells[self.shr as usize]);
                self.shr -= 1;
            }
            SETT => self.set_register(cell[1], -1),
            SETF => self.set_register(cell[1], 0),
            NOT => {
                let a = self.boolean(cell[1]).ok_or(1u32)?;
                self.set_register(cell[2], truth(!a));
            }
            AND => self.logic(cell, |a, b| a && b)?,
            OR => self.logic(cell, |a, b| a || b)?,
            XOR => self.logic(cell, |a, b| a != b)?,
            NAND => self.logic(cell, |a, b| !(a && b))?,
            NOR => self.logic(cell, |a, b| !(a || b))?,
            NEG => self.set_exact(cell[2], -i64::from(self.register(cell[1])))?,
            ABS => self.set_exact(cell[2], i64::from(self.register(cell[1])).abs())?,
            ADD => self.arithmetic(cell, |a, b| a + b)?,
            SUB => self.arithmetic(cell, |a, b| a - b)?,
            MUL => self.arithmetic(cell, |a, b| a * b)?,
            DIV | MOD => {
                if self.register(cell[2]) == 0 {
                    return Err(2);
                }
                if cell[0] == DIV {
                    self.arithmetic(cell, |a, b| a / b)?;
                } else {
                    self.arithmetic(cell, |a, b| a % b)?;
                }
            }
            INC => {
                let sum = i64::from(self.register(cell[1])) + i64::from(number(cell[2]));
                self.set_exact(cell[1], sum)?;
            }
            DEC => {
                let difference = i64::from(self.register(cell[1])) - i64::from(number(cell[2]));
                self.set_exact(cell[1], difference)?;
            }
            CMPEQ..=CMPGE => {
                let holds = holds(
                    cell[0] - CMPEQ,
                    self.register(cell[1]),
                    self.register(cell[2]),
                );
                self.set_register(cell[3], truth(holds));
            }
            JMP => return self.target(cell[1]),
            JMPT | JMPF => {
                let value = self.boolean(cell[2]).ok_or(2u32)?;
                if value == (cell[0] == JMPT) {
                    return self.target(cell[1]);
                }
            }
            JMPEQ..=JMPGE => {
                if holds(
                    cell[0] - JMPEQ,
                    self.register(cell[2]),
                    self.register(cell[3]),
                ) {
                    return self.target(cell[1]);
                }
            }
            SKIP => {
                if self.iar + 2 >= self.parameters.t {
                    return Err(1);
                }
                return Ok(self.iar + 2);
            }
            NOP => (),
            // The bits of a value above the K-th all equal its sign, so these need no cutting to K bits.
            RNOT => self.set_register(cell[2], !self.register(cell[1])),
            RAND => self.bits(cell, |a, b| a & b),
            ROR => self.bits(cell, |a, b| a | b),
            RXOR => self.bits(cell, |a, b| a ^ b),
            RNAND => self.bits(cell, |a, b| !(a & b)),
            RNOR => self.bits(cell, |a, b| !(a | b)),
            RSL | ASL => {
                let unused = 32 - self.parameters.k;
                let shifted = (self.register(cell[1]) << (unused + 1)) >> unused;
                self.set_register(cell[1], shifted);
            }
            RSR => {
                let unused = 32 - self.parameters.k;
                let bits = ((self.register(cell[1]) as u32) << unused) >> unused;
                self.set_register(cell[1], (bits >> 1) as i32);
            }
            ASR => self.set_register(cell[1], self.register(cell[1]) >> 1),
            DIVR => {
                let (a, b) = (self.register(cell[1]), self.register(cell[2]));
                if b == 0 {
                    return Err(2);
                }
                self.set_exact(cell[3], i64::from(a) / i64::from(b))?;
                self.set_register(cell[1], a % b);
            }
            _ => unreachable!("an image that passed check 10 has no other head"),
        }
        Ok(next)
    }

    /// The value of an argument.
    fn get(&self, word: u32) -> i32 {
        match word >> 30 {
            REGISTER => self.register(word),
            DIRECT => self.cells[(word & LOW) as usize],
            _ => number(word),
        }
    }

    /// The value of an argument that is a register, perhaps a special one.
    fn register(&self, word: u32) -> i32 {
        match word & LOW {
            IAR => self.iar as i32,
            IRCR => self.ircr as i32,
            SHR => self.shr,
            register => self.registers[register as usize],
        }
    }

    fn set(&mut self, word: u32, value: i32) {
        if word >> 30 == DIRECT {
            self.cells[(word & LOW) as usize] = value;
        } else {
            self.set_register(word, value);
        }
    }

    fn set_register(&mut self, word: u32, value: i32) {
        self.registers[(word & LOW) as usize] = value;
    }

    /// Writes an exact result to a register, or code 1 where it is outside -M..M-1.
    fn set_exact(&mut self, word: u32, result: i64) -> Result<(), u32> {
        let m = i64::from(self.parameters.m());
        if !(-m..m).contains(&result) {
            return Err(1);
        }
        self.set_register(word, result as i32);
        Ok(())
    }

    fn arithmetic(&mut self, cell: &[u32], result: impl Fn(i64, i64) -> i64) -> Result<(), u32> {
        let (a, b) = (self.register(cell[1]), self.register(cell[2]));
        self.set_exact(cell[3], result(a.into(), b.into()))
    }

    fn bits(&mut self, cell: &[u32], result: impl Fn(i32, i32) -> i32) {
        let value = result(self.register(cell[1]), self.register(cell[2]));
        self.set_register(cell[3], value);
    }

    fn logic(&mut self, cell: &[u32], result: impl Fn(bool, bool) -> bool) -> Result<(), u32> {
        let (a, b) = (self.boolean(cell[1]), self.boolean(cell[2]));
        let value = result(a.ok_or(1u32)?, b.ok_or(1u32)?);
        self.set_register(cell[3], truth(value));
        Ok(())
    }

    /// The Boolean in an argument: -1 is truth, 0 falsehood, no other value is one.
    fn boolean(&self, word: u32) -> Option<bool> {
        match self.register(word) {
            -1 => Some(true),
            0 => Some(false),
            _ => None,
        }
    }

    /// The cell that a jump goes to, or code 1.
    fn target(&self, word: u32) -> Result<u32, u32> {
        match u32::try_from(self.get(word)) {
            Ok(target) if target < self.parameters.t => Ok(target),
            _ => Err(1),
        }
    }

    /// The next number of the input with the place behind it, or IN's return code.
    fn read(&self) -> Result<(i32, usize), u32> {
        let blank = |byte: &u8| matches!(byte, b' ' | b'\t' | b'\r' | b'\n');
        let rest = &self.input[self.place..];
        let first = rest.iter().position(|byte| !blank(byte)).ok_or(3u32)?;
        let rest = &rest[first..];
        let length = rest.iter().position(blank).unwrap_or(rest.len());
        let value = read_number(&rest[..length]).ok_or(1u32)?;
        let m = i64::from(self.parameters.m());
        if !(-m..m).contains(&value) {
            return Err(2);
        }
        Ok((value as i32, self.place + first + length))
    }
}

fn truth(value: bool) -> i32 {
    if value { -1 } else { 0 }
}

/// The six comparisons in the order of their instructions: EQ NEQ LT GT LE GE.
fn holds(comparison: u32, a: i32, b: i32) -> bool {
    match comparison {
        0 => a == b,
        1 => a != b,
        2 => a < b,
        3 => a > b,
        4 => a <= b,
        _ => a >= b,
    }
}
