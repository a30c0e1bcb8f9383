//! The loader: a text to an image.

use crate::instructions::{Argument, IAR, INSTRUCTIONS, IRCR, NOP, SHR, encode, same_target};
use crate::{MAX_BYTES, Parameters};

/// The reply of `load`; `refusal` is 0 where the text was accepted.
#[derive(Clone, Copy, Debug, PartialEq, Eq)]
pub struct Loaded {
    pub refusal: u32,
    pub lines: u64,
    pub line: u64,
}

/// Loads a text. The image changes only where the whole text is accepted.
pub fn load(parameters: Parameters, text: &[u8], image: &mut [u32]) -> Loaded {
    match cells(parameters, text, image.len()) {
        Ok(cells) => {
            image.fill(0);
            for (place, cell) in image.chunks_exact_mut(4).zip(&cells) {
                place.copy_from_slice(cell);
            }
            Loaded {
                refusal: 0,
                lines: cells.len() as u64,
                line: 0,
            }
        }
        Err((refusal, line)) => Loaded {
            refusal,
            lines: 0,
            line,
        },
    }
}

/// The cells of a text's lines, or its refusal with the index of the faulty line.
fn cells(parameters: Parameters, text: &[u8], words: usize) -> Result<Vec<[u32; 4]>, (u32, u64)> {
    let parameters = parameters.check().map_err(|refusal| (refusal, 0))?;
    if words != 4 * parameters.t as usize {
        return Err((6, 0));
    }
    if text.len() > MAX_BYTES {
        return Err((7, 0));
    }
    if text.is_empty() {
        return Ok(Vec::new());
    }
    // A final LF begins no line.
    let text = text.strip_suffix(b"\n").unwrap_or(text);
    let lines = text.iter().filter(|byte| **byte == b'\n').count() + 1;
    if lines > parameters.t as usize {
        return Err((8, 0));
    }
    let mut cells = Vec::with_capacity(lines);
    for (index, line) in text.split(|byte| *byte == b'\n').enumerate() {
        cells.push(cell(line, parameters).map_err(|refusal| (refusal, index as u64))?);
    }
    Ok(cells)
}

/// The cell of one line, or the number of its fault.
fn cell(line: &[u8], parameters: Parameters) -> Result<[u32; 4], u32> {
    let comment = line
        .iter()
        .position(|byte| matches!(byte, b'/' | b'#' | b';'));
    let line = &line[..comment.unwrap_or(line.len())];
    let mut words = line
        .split(|byte| matches!(byte, b' ' | b'\t' | b'\r' | b','))
        .filter(|word| !word.is_empty());
    let Some(name) = words.next() else {
        return Ok([NOP, 0, 0, 0]);
    };
    let index = INSTRUCTIONS
        .iter()
        .position(|instruction| name.eq_ignore_ascii_case(instruction.name.as_bytes()))
        .ok_or(11u32)?;
    let forms = INSTRUCTIONS[index].forms;
    if words.clone().count() != forms.len() {
        return Err(12);
    }
    let mut cell = [index as u32 + 1, 0, 0, 0];
    for ((place, word), form) in cell[1..].iter_mut().zip(words).zip(forms) {
        *place = encode(argument(word).ok_or(13u32)?, *form, parameters)?;
    }
    if same_target(&cell) {
        return Err(19);
    }
    Ok(cell)
}

/// An argument's word in a text, if it is one.
fn argument(word: &[u8]) -> Option<Argument> {
    if word.eq_ignore_ascii_case(b"IAR") {
        return Some(Argument::Special(IAR));
    }
    if word.eq_ignore_ascii_case(b"IRCR") {
        return Some(Argument::Special(IRCR));
    }
    if word.eq_ignore_ascii_case(b"SHR") {
        return Some(Argument::Special(SHR));
    }
    match word {
        [b'R' | b'r', rest @ ..] => Some(Argument::Register(digits(rest)?)),
        [b'D' | b'd', b'M' | b'm', rest @ ..] => Some(Argument::Direct(digits(rest)?)),
        _ => Some(Argument::Number(number(word)?)),
    }
}

/// The value of a word of digits, at least one; a huge one stays at the largest number there is.
fn digits(word: &[u8]) -> Option<u64> {
    if word.is_empty() {
        return None;
    }
    let mut value = 0u64;
    for byte in word {
        if !byte.is_ascii_digit() {
            return None;
        }
        value = value
            .saturating_mul(10)
            .saturating_add(u64::from(byte - b'0'));
    }
    Some(value)
}

/// The value of an optional + or - followed by digits only, at least one; a huge one is far outside every range.
pub fn number(word: &[u8]) -> Option<i64> {
    let (negative, rest) = match word {
        [b'-', rest @ ..] => (true, rest),
        [b'+', rest @ ..] => (false, rest),
        _ => (false, word),
    };
    let value = digits(rest)?.min(i64::MAX as u64) as i64;
    Some(if negative { -value } else { value })
}
