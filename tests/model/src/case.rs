//! A case: the calls that both sides get, with everything they are lent.

use std::fmt;

use model::{Parameters, RECORD_LENGTH};

/// A change of what a call is lent. Indices are taken modulo the length of their slice.
#[derive(Clone, Debug, PartialEq)]
pub enum Edit {
    Record(usize, i64),
    Register(usize, i32),
    Cell(usize, i32),
    Word(usize, u32),
    RecordLength(usize),
    RegistersLength(usize),
    CellsLength(usize),
    ImageLength(usize),
    InputLength(usize),
}

#[derive(Clone, Debug)]
pub struct Load {
    pub parameters: Parameters,
    pub text: Vec<u8>,
    pub image_length: usize,
}

#[derive(Clone, Debug)]
pub struct Start {
    pub parameters: Parameters,
    pub edits: Vec<Edit>,
    /// Whether the state before the edits comes back after the call.
    pub restore: bool,
}

#[derive(Clone, Debug)]
pub struct Grant {
    pub cycles: u64,
    pub output_length: usize,
    pub edits: Vec<Edit>,
    /// Whether the state before the edits comes back after the call.
    pub restore: bool,
}

/// Loads one after the other, then starts over the image that the last load left, then grants over the record and
/// memory that the last start left, then decimals.
#[derive(Clone, Debug)]
pub struct Case {
    /// The seed of the old contents of every buffer.
    pub fill: u64,
    /// The lengths of registers and data cells are those of these parameters, unless an edit changes them.
    pub parameters: Parameters,
    pub loads: Vec<Load>,
    pub starts: Vec<Start>,
    pub input: Vec<u8>,
    pub grants: Vec<Grant>,
    pub decimals: Vec<(i32, usize)>,
}

/// Bytes as a person reads them; a long run of one byte is cut.
fn bytes(bytes: &[u8]) -> String {
    let mut written = String::from("\"");
    let mut index = 0;
    while index < bytes.len() {
        let run = bytes[index..]
            .iter()
            .take_while(|byte| **byte == bytes[index])
            .count();
        let shown = bytes[index].escape_ascii().to_string();
        if run > 40 {
            written.push_str(&format!("{shown}\" + {run} times in all + \""));
        } else {
            written.push_str(&shown.repeat(run));
        }
        index += run;
    }
    written.push('"');
    written
}

impl fmt::Display for Case {
    fn fmt(&self, out: &mut fmt::Formatter<'_>) -> fmt::Result {
        let Parameters { n, s, .. } = self.parameters;
        writeln!(
            out,
            "  lengths: {n} registers, {s} cells, record {RECORD_LENGTH}"
        )?;
        for load in &self.loads {
            let Parameters { k, n, s, b, t } = load.parameters;
            writeln!(
                out,
                "  load K={k} N={n} S={s} B={b} T={t}, image of {} words, text of {} bytes",
                load.image_length,
                load.text.len()
            )?;
            for line in load.text.split_inclusive(|byte| *byte == b'\n') {
                writeln!(out, "    {}", bytes(line))?;
            }
        }
        for start in &self.starts {
            let Parameters { k, n, s, b, t } = start.parameters;
            writeln!(
                out,
                "  start K={k} N={n} S={s} B={b} T={t}, edits {:?}{}",
                start.edits,
                restored(start.restore)
            )?;
        }
        writeln!(out, "  input {}", bytes(&self.input))?;
        for grant in &self.grants {
            writeln!(
                out,
                "  grant {} cycles, output of {} values, edits {:?}{}",
                grant.cycles,
                grant.output_length,
                grant.edits,
                restored(grant.restore)
            )?;
        }
        for (value, length) in &self.decimals {
            writeln!(out, "  decimal {value} into {length} bytes")?;
        }
        Ok(())
    }
}

fn restored(restore: bool) -> &'static str {
    if restore {
        " undone after the call"
    } else {
        ""
    }
}
