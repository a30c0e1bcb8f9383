//! Deliberately wrong variants of the model: the comparison must tell each of them from the model.

use model::grant::cost;
use model::instructions::*;
use model::record::{
    DEEPEST, GRANTED, IAR as RECORD_IAR, IRCR as RECORD_IRCR, PLACE, S, SHR as RECORD_SHR, SPENT,
};
use model::{Granted, Loaded, Parameters, RECORD_LENGTH, Written, ending};

use crate::machine::{Machine, Model};

#[derive(Clone, Copy, Debug, PartialEq, Eq)]
pub enum Fault {
    SpentReplyHigh,
    SpentRecordHigh,
    ShrHigh,
    GrantedKeptAfterEnd,
    LeftoverLostAtPause,
    PausedInsteadOfEnded,
    ValueBehindOutput,
    RefusedGrantAddsCycles,
    RefusedGrantNamesEnding,
    RecordCheckedBeforeImage,
    LaterByteTouched,
    CountWithRefusal,
    RefusedLoadWritesWord,
    WrongLine,
    LinesWithRefusal,
    ImageTailKept,
    RefusedStartWritesRecord,
    StartKeepsLastCell,
    DeepestStartsAtZero,
    DeepestIsLastShr,
    DeepestHigh,
    DeepestCountsFailingPush,
    DeepestAllowedAtS,
    DeepestAllowedBelowShr,
    DeepestRefusedAtTop,
    SameTargetMissing,
    SameTargetBeforeForm,
    SameTargetBeforeRange,
    SameTargetOfDivisor,
    SameTargetImageAccepted,
    FloorDivision,
    ModuloOfDivisor,
    ArithmeticShiftAsLogical,
    PushShrUnraised,
    IarRaisedAfterFailure,
    TargetAgainstLines,
    FailedInPassesBlanks,
    ClearRegClearsCells,
    CmpLeAsLt,
    CodeOneForDivisorZero,
    DeepestAnewAtGrant,
    DeepestFallsAtPop,
    DivrExchanged,
    DivrReadsQuotient,
    DivrOverflowWritesRemainder,
    DivrByZeroWritesQuotient,
    DivrFloors,
    DivrRemainderOfDivisor,
    DivrCostsThirty,
    /// No fault, but single steps: the comparison must find nothing.
    None,
}

impl Fault {
    pub const ALL: [Fault; 49] = [
        Fault::SpentReplyHigh,
        Fault::SpentRecordHigh,
        Fault::ShrHigh,
        Fault::GrantedKeptAfterEnd,
        Fault::LeftoverLostAtPause,
        Fault::PausedInsteadOfEnded,
        Fault::ValueBehindOutput,
        Fault::RefusedGrantAddsCycles,
        Fault::RefusedGrantNamesEnding,
        Fault::RecordCheckedBeforeImage,
        Fault::LaterByteTouched,
        Fault::CountWithRefusal,
        Fault::RefusedLoadWritesWord,
        Fault::WrongLine,
        Fault::LinesWithRefusal,
        Fault::ImageTailKept,
        Fault::RefusedStartWritesRecord,
        Fault::StartKeepsLastCell,
        Fault::DeepestStartsAtZero,
        Fault::DeepestIsLastShr,
        Fault::DeepestHigh,
        Fault::DeepestCountsFailingPush,
        Fault::DeepestAllowedAtS,
        Fault::DeepestAllowedBelowShr,
        Fault::DeepestRefusedAtTop,
        Fault::SameTargetMissing,
        Fault::SameTargetBeforeForm,
        Fault::SameTargetBeforeRange,
        Fault::SameTargetOfDivisor,
        Fault::SameTargetImageAccepted,
        Fault::FloorDivision,
        Fault::ModuloOfDivisor,
        Fault::ArithmeticShiftAsLogical,
        Fault::PushShrUnraised,
        Fault::IarRaisedAfterFailure,
        Fault::TargetAgainstLines,
        Fault::FailedInPassesBlanks,
        Fault::ClearRegClearsCells,
        Fault::CmpLeAsLt,
        Fault::CodeOneForDivisorZero,
        Fault::DeepestAnewAtGrant,
        Fault::DeepestFallsAtPop,
        Fault::DivrExchanged,
        Fault::DivrReadsQuotient,
        Fault::DivrOverflowWritesRemainder,
        Fault::DivrByZeroWritesQuotient,
        Fault::DivrFloors,
        Fault::DivrRemainderOfDivisor,
        Fault::DivrCostsThirty,
    ];

    /// Whether the fault is one of a step, and not of a reply or a buffer.
    fn of_step(self) -> bool {
        self as u32 >= Fault::FloorDivision as u32
    }
}

pub struct Wrong(pub Fault);

impl Machine for Wrong {
    fn load(&self, parameters: Parameters, text: &[u8], image: &mut [u32]) -> Loaded {
        let old = image.to_vec();
        let mut reply = Model.load(parameters, text, image);
        let faulty_line = matches!(reply.refusal, 11..=14 | 19);
        match self.0 {
            Fault::SameTargetMissing => reply = load_without_19(parameters, text, image),
            Fault::SameTargetBeforeForm if reply.refusal == 13 && one_target(text, reply.line) => {
                reply.refusal = 19;
            }
            Fault::SameTargetBeforeRange if reply.refusal == 14 && one_target(text, reply.line) => {
                reply.refusal = 19;
            }
            Fault::SameTargetOfDivisor if reply.refusal == 0 => {
                let divides_itself = |cell: &[u32]| cell[0] == DIVR && cell[1] == cell[2];
                if let Some(line) = image.chunks_exact(4).position(divides_itself) {
                    image.copy_from_slice(&old);
                    reply = Loaded {
                        refusal: 19,
                        lines: 0,
                        line: line as u64,
                    };
                }
            }
            Fault::RefusedLoadWritesWord if reply.refusal != 0 && !image.is_empty() => {
                image[0] ^= 1;
            }
            Fault::WrongLine if faulty_line => reply.line += 1,
            Fault::LinesWithRefusal if faulty_line => reply.lines = reply.line,
            Fault::ImageTailKept if reply.refusal == 0 => {
                let used = 4 * reply.lines as usize;
                image[used..].copy_from_slice(&old[used..]);
            }
            _ => (),
        }
        reply
    }

    fn start(
        &self,
        parameters: Parameters,
        image: &[u32],
        registers: &mut [i32],
        cells: &mut [i32],
        record: &mut [i64],
    ) -> u32 {
        let last = cells.last().copied();
        let image = &self.taken_for(image);
        let refusal = Model.start(parameters, image, registers, cells, record);
        match self.0 {
            Fault::RefusedStartWritesRecord if refusal != 0 => record.fill(0),
            Fault::StartKeepsLastCell if refusal == 0 => {
                if let (Some(cell), Some(old)) = (cells.last_mut(), last) {
                    *cell = old;
                }
            }
            Fault::DeepestStartsAtZero if refusal == 0 => record[DEEPEST] = 0,
            _ => (),
        }
        refusal
    }

    fn grant(
        &self,
        record: &mut [i64],
        cycles: u64,
        image: &[u32],
        input: &[u8],
        registers: &mut [i32],
        cells: &mut [i32],
        output: &mut [i32],
    ) -> Granted {
        if self.0.of_step() {
            return self.grant_by_steps(record, cycles, image, input, registers, cells, output);
        }
        let old = record.to_vec();
        let mistaken = self.mistaken(record);
        if let Some(deepest) = mistaken {
            record[DEEPEST] = deepest;
        }
        let image = &self.taken_for(image);
        let mut reply = Model.grant(record, cycles, image, input, registers, cells, output);
        if mistaken.is_some() {
            record[DEEPEST] = old[DEEPEST];
        }
        let accepted = reply.refusal == 0;
        let written = reply.values as usize;
        match self.0 {
            Fault::SpentReplyHigh if accepted => reply.spent += 1,
            Fault::SpentRecordHigh if accepted && reply.spent > 0 => record[SPENT] += 1,
            Fault::ShrHigh if accepted && record[RECORD_SHR] != old[RECORD_SHR] => {
                record[RECORD_SHR] += 1
            }
            Fault::DeepestIsLastShr if accepted => record[DEEPEST] = record[RECORD_SHR],
            Fault::DeepestHigh if accepted && record[DEEPEST] != old[DEEPEST] => {
                record[DEEPEST] += 1
            }
            Fault::DeepestCountsFailingPush
                if reply.ending == ending::FAILED
                    && old[RECORD_IRCR] == 0
                    && image[4 * record[RECORD_IAR] as usize] == PUSH =>
            {
                record[DEEPEST] += 1
            }
            Fault::GrantedKeptAfterEnd if reply.ending == ending::ENDED => {
                record[GRANTED] -= cycles as i64;
            }
            Fault::LeftoverLostAtPause if reply.ending == ending::PAUSED => {
                record[GRANTED] = record[SPENT];
            }
            Fault::PausedInsteadOfEnded if reply.ending == ending::ENDED => {
                reply.ending = ending::PAUSED;
            }
            Fault::ValueBehindOutput if accepted && written < output.len() => output[written] = 0,
            Fault::RefusedGrantAddsCycles if !accepted && record.len() == RECORD_LENGTH => {
                record[GRANTED] = record[GRANTED].wrapping_add(cycles as i64);
            }
            Fault::RefusedGrantNamesEnding if !accepted => reply.ending = ending::FAILED,
            Fault::RecordCheckedBeforeImage if reply.refusal == 10 && record[RECORD_IAR] < 0 => {
                reply.refusal = 15;
            }
            _ => (),
        }
        reply
    }

    fn decimal(&self, value: i32, bytes: &mut [u8]) -> Written {
        let mut reply = Model.decimal(value, bytes);
        let count = reply.count as usize;
        match self.0 {
            Fault::LaterByteTouched if reply.refusal == 0 && count < bytes.len() => {
                bytes[count] = bytes[count].wrapping_add(1);
            }
            Fault::CountWithRefusal if reply.refusal != 0 => reply.count = bytes.len() as u64,
            _ => (),
        }
        reply
    }
}

/// A load that never gives 19: such a line is loaded as the DIV of its arguments, and its head put right.
fn load_without_19(parameters: Parameters, text: &[u8], image: &mut [u32]) -> Loaded {
    let mut lines: Vec<Vec<u8>> = text.split(|byte| *byte == b'\n').map(Vec::from).collect();
    let mut heads = Vec::new();
    loop {
        let reply = Model.load(parameters, &lines.join(&b'\n'), image);
        if reply.refusal != 19 {
            if reply.refusal == 0 {
                for line in heads {
                    image[4 * line] = DIVR;
                }
            }
            return reply;
        }
        let line = &mut lines[reply.line as usize];
        let last_letter = line
            .iter()
            .position(|byte| byte.eq_ignore_ascii_case(&b'V'));
        line.remove(last_letter.expect("a line with 19 begins with DIVR") + 1);
        heads.push(reply.line as usize);
    }
}

/// Whether a line is a DIVR with one word for both targets.
fn one_target(text: &[u8], line: u64) -> bool {
    let line = text.split(|byte| *byte == b'\n').nth(line as usize);
    let words: Vec<&[u8]> = line
        .unwrap_or_default()
        .split(|byte| b" \t\r,".contains(byte))
        .filter(|word| !word.is_empty())
        .collect();
    words.len() == 4
        && words[0].eq_ignore_ascii_case(b"DIVR")
        && words[1].eq_ignore_ascii_case(words[3])
}

impl Wrong {
    /// The image that a wrong check 10 takes an image for: it lets a DIVR pass whose targets are one register.
    fn taken_for(&self, image: &[u32]) -> Vec<u32> {
        let mut image = image.to_vec();
        if self.0 == Fault::SameTargetImageAccepted {
            for cell in image.chunks_exact_mut(4).filter(|cell| same_target(cell)) {
                cell[0] = DIV;
            }
        }
        image
    }

    /// What a wrong check 15 takes a record's `deepest` for.
    fn mistaken(&self, record: &[i64]) -> Option<i64> {
        if record.len() != RECORD_LENGTH {
            return None;
        }
        let (shr, deepest, s) = (record[RECORD_SHR], record[DEEPEST], record[S]);
        let top = s.wrapping_sub(1);
        match self.0 {
            Fault::DeepestAllowedAtS if deepest == s => Some(top),
            Fault::DeepestAllowedBelowShr if deepest < shr => Some(shr),
            Fault::DeepestRefusedAtTop if deepest == top => Some(s),
            _ => None,
        }
    }

    /// A grant as single steps of the model, some of them spoilt: each step gets its own cost and nothing more.
    #[allow(clippy::too_many_arguments)]
    fn grant_by_steps(
        &self,
        record: &mut [i64],
        cycles: u64,
        image: &[u32],
        input: &[u8],
        registers: &mut [i32],
        cells: &mut [i32],
        output: &mut [i32],
    ) -> Granted {
        let mut look = record.to_vec();
        let mut nothing = [];
        let first = Model.grant(
            &mut look,
            cycles,
            image,
            input,
            &mut registers.to_vec(),
            &mut cells.to_vec(),
            &mut nothing,
        );
        if first.refusal != 0 {
            return first;
        }
        let parameters = Parameters::checked(record[0], record[1], record[2], record[3], record[4])
            .expect("the model accepted the record");
        let granted = record[GRANTED] + cycles as i64;
        let before = record[SPENT];
        if self.0 == Fault::DeepestAnewAtGrant {
            record[DEEPEST] = record[RECORD_SHR];
        }
        let mut written = 0;
        let mut reply = first;
        // Behind so many single steps the model goes on alone, unspoilt.
        for step in 0..=3000 {
            let place = 4 * record[RECORD_IAR] as usize;
            let cell = image.get(place..place + 4).unwrap_or(&[0; 4]);
            let price = match cell[0] {
                0 => 0,
                _ => cost(cell, parameters) as i64,
            };
            let asked = match cell[0] {
                DIVR if self.0 == Fault::DivrCostsThirty => 30,
                _ => price,
            };
            let dear = granted - record[SPENT] < asked;
            record[GRANTED] = match step {
                3000 => granted,
                _ if dear => record[SPENT],
                _ => record[SPENT] + price,
            };
            let old = (record.to_vec(), registers.to_vec(), cells.to_vec());
            let rest = &mut output[written..];
            reply = Model.grant(record, 0, image, input, registers, cells, rest);
            written += reply.values as usize;
            if reply.spent == 0 || step == 3000 {
                break;
            }
            self.spoil(
                cell, image, input, &old, record, registers, cells, parameters,
            );
        }
        record[GRANTED] = granted;
        Granted {
            refusal: 0,
            ending: reply.ending,
            values: written as u64,
            spent: (record[SPENT] - before) as u64,
        }
    }

    #[allow(clippy::too_many_arguments)]
    fn spoil(
        &self,
        cell: &[u32],
        image: &[u32],
        input: &[u8],
        (old_record, old_registers, old_cells): &(Vec<i64>, Vec<i32>, Vec<i32>),
        record: &mut [i64],
        registers: &mut [i32],
        cells: &mut [i32],
        parameters: Parameters,
    ) {
        let get = |word: u32| match word & LOW {
            IAR => old_record[RECORD_IAR] as i32,
            IRCR => 0,
            SHR => old_record[RECORD_SHR] as i32,
            index => old_registers[index as usize],
        };
        let low = |word: u32| (word & LOW) as usize;
        let done = record[RECORD_IRCR] == 0;
        match self.0 {
            Fault::FloorDivision if cell[0] == DIV && done => {
                let (a, b) = (get(cell[1]), get(cell[2]));
                if a % b != 0 && (a < 0) != (b < 0) {
                    registers[low(cell[3])] -= 1;
                }
            }
            Fault::ModuloOfDivisor if cell[0] == MOD && done => {
                let (a, b) = (get(cell[1]), get(cell[2]));
                if a % b != 0 && (a < 0) != (b < 0) {
                    registers[low(cell[3])] += b;
                }
            }
            Fault::ArithmeticShiftAsLogical if cell[0] == ASR => {
                registers[low(cell[1])] &= parameters.m() - 1;
            }
            Fault::PushShrUnraised if cell[0] == PUSH && cell[1] & LOW == SHR && done => {
                cells[record[RECORD_SHR] as usize] -= 1;
            }
            Fault::IarRaisedAfterFailure if !done => record[RECORD_IAR] += 1,
            Fault::TargetAgainstLines if (JMP..=JMPGE).contains(&cell[0]) && done => {
                let next = record[RECORD_IAR];
                let jumped = next != old_record[RECORD_IAR] + 1;
                if jumped && image[4 * next as usize] == 0 {
                    record[RECORD_IAR] = old_record[RECORD_IAR];
                    record[RECORD_IRCR] = 1;
                }
            }
            Fault::FailedInPassesBlanks if cell[0] == IN && !done => {
                let place = record[PLACE] as usize;
                if input.get(place) == Some(&b' ') {
                    record[PLACE] += 1;
                }
            }
            Fault::ClearRegClearsCells if cell[0] == CLEAR_REG => cells.fill(0),
            Fault::CmpLeAsLt if cell[0] == CMPLE && get(cell[1]) == get(cell[2]) => {
                registers[low(cell[3])] = 0;
            }
            Fault::DeepestFallsAtPop
                if cell[0] == POP && done && record[DEEPEST] == old_record[RECORD_SHR] =>
            {
                record[DEEPEST] -= 1;
            }
            Fault::DivrExchanged if cell[0] == DIVR && done => {
                registers.swap(low(cell[1]), low(cell[3]));
            }
            Fault::DivrReadsQuotient if cell[0] == DIVR && cell[2] == cell[3] && done => {
                let quotient = registers[low(cell[3])];
                if quotient != 0 {
                    registers[low(cell[1])] = get(cell[1]) % quotient;
                }
            }
            Fault::DivrOverflowWritesRemainder if cell[0] == DIVR && record[RECORD_IRCR] == 1 => {
                registers[low(cell[1])] = 0;
            }
            Fault::DivrByZeroWritesQuotient if cell[0] == DIVR && record[RECORD_IRCR] == 2 => {
                registers[low(cell[3])] = 0;
            }
            Fault::DivrFloors if cell[0] == DIVR && done => {
                let (a, b) = (get(cell[1]), get(cell[2]));
                if a % b != 0 && (a < 0) != (b < 0) {
                    registers[low(cell[3])] -= 1;
                    registers[low(cell[1])] += b;
                }
            }
            Fault::DivrRemainderOfDivisor if cell[0] == DIVR && done => {
                let (remainder, b) = (registers[low(cell[1])], get(cell[2]));
                if (remainder < 0) != (b < 0) {
                    registers[low(cell[1])] = -remainder;
                }
            }
            Fault::DivrCostsThirty if cell[0] == DIVR => record[SPENT] -= 1,
            Fault::CodeOneForDivisorZero if matches!(cell[0], DIV | MOD | DIVR) && !done => {
                record[RECORD_IRCR] = 1;
                registers.copy_from_slice(old_registers);
                cells.copy_from_slice(old_cells);
            }
            _ => (),
        }
    }
}
