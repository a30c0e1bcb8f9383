//! What a run has seen, and what it must have seen to count.

use std::collections::{BTreeMap, BTreeSet};

use model::grant::grant_watched;
use model::instructions::*;
use model::record;
use model::{Granted, Loaded, MAX_GRANT, MAX_GRANTED, Parameters, RECORD_LENGTH, Written, ending};

pub struct Cover {
    counting: bool,
    seen: BTreeMap<String, u64>,
    /// For each instruction and return code, how many steps were taken.
    steps: [[u64; 4]; INSTRUCTIONS.len() + 1],
    /// Why the record or memory of the coming grant is unfit.
    unfit: Vec<&'static str>,
    bad_image: &'static str,
    bad_lengths: &'static str,
    /// Whether a PUSH fails in the coming grant.
    push_fails: bool,
    pub skipped: u64,
}

impl Cover {
    pub fn new() -> Cover {
        Cover {
            counting: true,
            seen: BTreeMap::new(),
            steps: [[0; 4]; INSTRUCTIONS.len() + 1],
            unfit: Vec::new(),
            bad_image: "",
            bad_lengths: "",
            push_fails: false,
            skipped: 0,
        }
    }

    /// One that counts nothing.
    pub fn off() -> Cover {
        Cover {
            counting: false,
            ..Cover::new()
        }
    }

    fn count(&mut self, name: String) {
        *self.seen.entry(name).or_insert(0) += 1;
    }

    pub fn load(&mut self, parameters: Parameters, text: &[u8], reply: &Loaded) {
        if !self.counting {
            return;
        }
        self.count(format!("load {}", reply.refusal));
        if matches!(reply.refusal, 11..=14 | 19) {
            let place = if reply.line == 0 { "first" } else { "later" };
            self.count(format!("load {} in the {place} line", reply.refusal));
            for name in same_target_lines(parameters, text, reply) {
                self.count(format!("load {name}"));
            }
        }
        if reply.refusal == 0 && reply.lines == 0 {
            self.count("load 0 without lines".into());
        }
    }

    pub fn start(&mut self, refusal: u32, parameters: Parameters, image: &[u32], registers: usize) {
        if !self.counting {
            return;
        }
        self.count(format!("start {refusal}"));
        if refusal == 9 {
            let which = lengths(parameters, registers);
            self.count(format!("start 9 {which}"));
        }
        if refusal == 10 {
            self.count(format!("start 10 {}", fault(image, parameters)));
        }
    }

    #[allow(clippy::too_many_arguments)]
    pub fn before_grant(
        &mut self,
        cycles: u64,
        record: &[i64],
        image: &[u32],
        input: &[u8],
        registers: &[i32],
        cells: &[i32],
        output_length: usize,
    ) {
        if !self.counting || record.len() != RECORD_LENGTH {
            return;
        }
        let parameters = Parameters::checked(record[0], record[1], record[2], record[3], record[4]);
        if let Ok(parameters) = parameters {
            self.bad_image = fault(image, parameters);
            self.bad_lengths = lengths(parameters, registers.len());
            self.unfit = unfit(parameters, record, input.len(), registers, cells);
        }
        // A second run on copies tells the steps.
        let steps = &mut self.steps;
        let push_fails = &mut self.push_fails;
        *push_fails = false;
        let mut divisions = BTreeSet::new();
        grant_watched(
            &mut record.to_vec(),
            cycles,
            image,
            input,
            &mut registers.to_vec(),
            &mut cells.to_vec(),
            &mut vec![0; output_length],
            |cell, code| {
                steps[cell[0] as usize][code as usize] += 1;
                *push_fails |= cell[0] == PUSH && code != 0;
                if cell[0] == DIVR {
                    divisions.insert((divisor(cell), code));
                }
            },
        );
        for (divisor, code) in divisions {
            self.count(format!("DIVR by {divisor} with code {code}"));
        }
    }

    pub fn after_grant(&mut self, reply: &Granted, cycles: u64, before: &[i64], after: &[i64]) {
        if !self.counting {
            return;
        }
        self.count(format!("grant {}", reply.refusal));
        match reply.refusal {
            0 => {
                self.count(format!("ending {}", reply.ending));
                if before[record::GRANTED] + cycles as i64 == MAX_GRANTED as i64 {
                    self.count("grant 0 with all cycles granted".into());
                }
                for name in deepest(before, after, self.push_fails) {
                    self.count(format!("grant 0 with deepest {name}"));
                }
            }
            9 => self.count(format!("grant 9 {}", self.bad_lengths)),
            10 => self.count(format!("grant 10 {}", self.bad_image)),
            15 => {
                if let [reason] = self.unfit[..] {
                    self.count(format!("grant 15 by {reason} alone"));
                }
            }
            17 if cycles > MAX_GRANT => self.count("grant 17 by the cycles".into()),
            17 => self.count("grant 17 by the sum".into()),
            _ => (),
        }
    }

    /// So many grants of a list have taken steps.
    pub fn list(&mut self, stepping: u32) {
        if self.counting {
            self.count(format!("{stepping} grants of a list that take steps"));
        }
    }

    pub fn decimal(&mut self, reply: &Written, length: usize) {
        if self.counting {
            self.count(format!("decimal {}", reply.refusal));
            self.count(format!("decimal into {length} bytes"));
        }
    }

    /// The names of what must be seen and was not.
    pub fn missing(&self) -> Vec<String> {
        let mut missing: Vec<String> = required()
            .into_iter()
            .filter(|name| !self.seen.contains_key(name))
            .collect();
        for (index, instruction) in INSTRUCTIONS.iter().enumerate() {
            for code in codes(index as u32 + 1) {
                if self.steps[index + 1][*code] == 0 {
                    missing.push(format!("{} with code {code}", instruction.name));
                }
            }
        }
        missing
    }

    /// A short summary for a person.
    pub fn summary(&self) -> String {
        let group = |prefix: &str| {
            let counts: Vec<String> = self
                .seen
                .iter()
                .filter_map(|(name, count)| {
                    let number = name.strip_prefix(prefix)?.parse::<u32>().ok()?;
                    Some((number, count))
                })
                .collect::<BTreeMap<_, _>>()
                .into_iter()
                .map(|(number, count)| format!("{number}: {count}"))
                .collect();
            counts.join(", ")
        };
        let failed = |steps: &[u64; 4]| steps[1] + steps[2] + steps[3];
        let all: u64 = self.steps.iter().flatten().sum();
        let pairs = self.steps.iter().flatten().filter(|n| **n > 0).count();
        format!(
            "replies of load (refusal: times)   {}\n\
             replies of start                   {}\n\
             replies of grant                   {}\n\
             endings of grants                  {}\n\
             replies of decimal                 {}\n\
             steps                              {all}, {} of them failing; {pairs} pairs of instruction and return code\n\
             grants left out as too long        {}\n",
            group("load "),
            group("start "),
            group("grant "),
            group("ending "),
            group("decimal "),
            self.steps.iter().map(failed).sum::<u64>(),
            self.skipped,
        )
    }
}

/// The return codes that an instruction can have.
pub fn codes(instruction: u32) -> &'static [usize] {
    match instruction {
        IN => &[0, 1, 2, 3],
        DIV | DIVR | JMPT | JMPF => &[0, 1, 2],
        MOD => &[0, 2],
        PUSH | POP | NOT..=NOR | NEG..=MUL | INC | DEC | JMP | JMPEQ..=JMPGE | SKIP => &[0, 1],
        _ => &[0],
    }
}

/// What DIVR may divide by.
const DIVISORS: [&str; 4] = [
    "its first argument",
    "its third argument",
    "another register",
    "a special register",
];

/// What a refused text has to do with the refusal 19.
const SAME_TARGET_LINES: [&str; 5] = [
    "13 before 19",
    "14 before 19",
    "19 with the divisor's register too",
    "19 before a faulty line",
    "a faulty line before 19",
];

const IMAGE_FAULTS: [&str; 9] = [
    "a head that is no instruction's",
    "a word where an argument is absent",
    "a cell behind an empty one",
    "an argument of another form",
    "a register too high",
    "a direct cell too high",
    "a number outside the range",
    "words behind a zero head",
    "one register for both targets",
];

const UNFIT: [&str; 18] = [
    "IAR below",
    "IAR above",
    "IRCR below",
    "IRCR above",
    "SHR below",
    "SHR above",
    "deepest below",
    "deepest above",
    "place below",
    "place above",
    "granted above",
    "spent below",
    "spent above",
    "a register below",
    "a register above",
    "a cell below",
    "a cell above",
    "granted below",
];

/// Where `deepest` stood before an accepted grant, and what became of it.
const DEEPEST: [&str; 9] = [
    "at SHR",
    "between SHR and S-1",
    "at S-1",
    "at -1",
    "raised",
    "raised and left behind",
    "kept by POP",
    "kept by PUSH",
    "kept by a failing PUSH",
];

fn required() -> Vec<String> {
    let mut names = Vec::new();
    for number in (0..=8).chain(11..=14).chain([19]) {
        names.push(format!("load {number}"));
    }
    for number in (11..=14).chain([19]) {
        names.push(format!("load {number} in the first line"));
        names.push(format!("load {number} in the later line"));
    }
    for name in SAME_TARGET_LINES {
        names.push(format!("load {name}"));
    }
    names.push("load 0 without lines".into());
    for number in (0..=6).chain([9, 10, 100]) {
        names.push(format!("start {number}"));
    }
    for number in (0..=6).chain([9, 10, 15, 16, 17, 100]) {
        names.push(format!("grant {number}"));
    }
    for call in ["start", "grant"] {
        names.push(format!("{call} 9 by the registers"));
        names.push(format!("{call} 9 by the cells"));
        for fault in IMAGE_FAULTS {
            names.push(format!("{call} 10 {fault}"));
        }
    }
    for reason in UNFIT {
        // A negative granted is always below spent too, or spent is negative.
        if reason != "granted below" {
            names.push(format!("grant 15 by {reason} alone"));
        }
    }
    names.push("grant 17 by the cycles".into());
    names.push("grant 17 by the sum".into());
    names.push("grant 0 with all cycles granted".into());
    for name in DEEPEST {
        names.push(format!("grant 0 with deepest {name}"));
    }
    for divisor in DIVISORS {
        for code in codes(DIVR) {
            // A number divided by itself is 1.
            if (divisor, *code) != (DIVISORS[0], 1) {
                names.push(format!("DIVR by {divisor} with code {code}"));
            }
        }
    }
    for stepping in 1..=5 {
        names.push(format!("{stepping} grants of a list that take steps"));
    }
    for number in ending::FAILED..=ending::OUTPUT_FULL {
        names.push(format!("ending {number}"));
    }
    names.push("decimal 0".into());
    names.push("decimal 18".into());
    for length in 0..=20 {
        names.push(format!("decimal into {length} bytes"));
    }
    names
}

fn lengths(parameters: Parameters, registers: usize) -> &'static str {
    if registers != parameters.n as usize {
        "by the registers"
    } else {
        "by the cells"
    }
}

/// Why a record or memory is unfit, all reasons.
fn unfit(
    parameters: Parameters,
    record: &[i64],
    input: usize,
    registers: &[i32],
    cells: &[i32],
) -> Vec<&'static str> {
    let Parameters { s, b, t, .. } = parameters;
    let m = parameters.m();
    let (granted, spent) = (record[record::GRANTED], record[record::SPENT]);
    let (shr, deepest) = (record[record::SHR], record[record::DEEPEST]);
    let conditions = [
        record[record::IAR] < 0,
        record[record::IAR] > t.into(),
        record[record::IRCR] < 0,
        record[record::IRCR] > 3,
        shr < i64::from(b) - 1,
        shr >= s.into(),
        // Nothing fits above an SHR of S or more, which is then the one at fault.
        deepest < shr && shr < s.into(),
        deepest >= s.into(),
        record[record::PLACE] < 0,
        record[record::PLACE] > input as i64,
        granted > MAX_GRANTED as i64,
        spent < 0,
        spent > granted,
        registers.iter().any(|value| *value < -m),
        registers.iter().any(|value| *value >= m),
        cells.iter().any(|value| *value < -m),
        cells.iter().any(|value| *value >= m),
        granted < 0,
    ];
    UNFIT
        .into_iter()
        .zip(conditions)
        .filter_map(|(name, holds)| holds.then_some(name))
        .collect()
}

/// The name in `DIVISORS` of a DIVR's divisor.
fn divisor(cell: &[u32]) -> &'static str {
    let [_, first, second, third] = cell else {
        unreachable!("a cell has four words");
    };
    DIVISORS[match second & LOW {
        IAR..=SHR => 3,
        _ if second == first => 0,
        _ if second == third => 1,
        _ => 2,
    }]
}

/// The names of `SAME_TARGET_LINES` that hold of a text refused for a line.
fn same_target_lines(
    parameters: Parameters,
    text: &[u8],
    reply: &Loaded,
) -> impl Iterator<Item = &'static str> {
    let mut lines = text.split(|byte| *byte == b'\n').skip(reply.line as usize);
    let words = words(lines.next().unwrap_or(&[]));
    let equal = |i: usize, j: usize| words.len() == 4 && words[i] == words[j];
    let one_word = words.first().is_some_and(|name| name == b"DIVR") && equal(1, 3);
    let later: Vec<u32> = lines.map(|line| fault_of_line(parameters, line)).collect();
    let conditions = [
        reply.refusal == 13 && one_word,
        reply.refusal == 14 && one_word,
        reply.refusal == 19 && equal(1, 2),
        reply.refusal == 19 && later.iter().any(|fault| (11..=14).contains(fault)),
        reply.refusal != 19 && later.contains(&19),
    ];
    SAME_TARGET_LINES
        .into_iter()
        .zip(conditions)
        .filter_map(|(name, holds)| holds.then_some(name))
}

/// The words of a line in capitals, without its comment.
fn words(line: &[u8]) -> Vec<Vec<u8>> {
    let comment = line.iter().position(|byte| b"/#;".contains(byte));
    line[..comment.unwrap_or(line.len())]
        .split(|byte| b" \t\r,".contains(byte))
        .filter(|word| !word.is_empty())
        .map(|word| word.to_ascii_uppercase())
        .collect()
}

/// The refusal of a line that is the whole text.
fn fault_of_line(parameters: Parameters, line: &[u8]) -> u32 {
    let parameters = Parameters { t: 1, ..parameters };
    model::load(parameters, line, &mut [0; 4]).refusal
}

/// The names of `DEEPEST` that hold of an accepted grant.
fn deepest(before: &[i64], after: &[i64], push_fails: bool) -> Vec<&'static str> {
    let (shr, deepest, last) = (
        before[record::SHR],
        before[record::DEEPEST],
        before[record::S] - 1,
    );
    let kept = after[record::DEEPEST] == deepest;
    let on_top = after[record::DEEPEST] == after[record::SHR];
    let conditions = [
        deepest == shr,
        shr < deepest && deepest < last,
        deepest == last,
        deepest == -1,
        !kept && on_top,
        !kept && !on_top,
        kept && after[record::SHR] < shr,
        kept && after[record::SHR] > shr,
        kept && push_fails,
    ];
    DEEPEST
        .into_iter()
        .zip(conditions)
        .filter_map(|(name, holds)| holds.then_some(name))
        .collect()
}

/// The first fault of an image; no promise where it has none.
fn fault(image: &[u32], parameters: Parameters) -> &'static str {
    let m = parameters.m();
    let mut empty = false;
    for cell in image.chunks_exact(4) {
        if cell == [0; 4] {
            empty = true;
            continue;
        }
        if empty {
            return IMAGE_FAULTS[2];
        }
        if cell[0] == 0 {
            return IMAGE_FAULTS[7];
        }
        let Some(forms) = forms(cell[0]) else {
            return IMAGE_FAULTS[0];
        };
        for (place, word) in cell[1..].iter().enumerate() {
            let Some(form) = forms.get(place) else {
                if *word != 0 {
                    return IMAGE_FAULTS[1];
                }
                continue;
            };
            let low = word & LOW;
            let allowed = match word >> 30 {
                REGISTER => *form != Form::Number,
                DIRECT => matches!(form, Form::ReadAny | Form::WriteAny),
                NUMBER => matches!(form, Form::Number | Form::Target),
                _ => false,
            };
            if !allowed {
                return IMAGE_FAULTS[3];
            }
            let special = (IAR..=SHR).contains(&low);
            match word >> 30 {
                REGISTER if special && matches!(form, Form::Write | Form::WriteAny) => {
                    return IMAGE_FAULTS[3];
                }
                REGISTER if !special && low >= parameters.n => return IMAGE_FAULTS[4],
                DIRECT if low >= parameters.b => return IMAGE_FAULTS[5],
                NUMBER if !(-m..m).contains(&number(*word)) => return IMAGE_FAULTS[6],
                _ => (),
            }
        }
        if cell[0] == DIVR && cell[1] == cell[3] {
            return IMAGE_FAULTS[8];
        }
    }
    ""
}
