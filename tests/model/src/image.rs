//! Check 10: an image that no text yields.

use crate::Parameters;
use crate::instructions::{
    Argument, DIRECT, IAR, LOW, NUMBER, REGISTER, SHR, encode, forms, number, same_target,
};

/// Whether some text yields this image: cells of accepted lines, then only empty cells.
pub fn yielded(image: &[u32], parameters: Parameters) -> bool {
    let mut empty = false;
    for cell in image.chunks_exact(4) {
        if cell == [0, 0, 0, 0] {
            empty = true;
        } else if empty || !line(cell, parameters) {
            return false;
        }
    }
    true
}

/// Whether some accepted line yields this cell.
fn line(cell: &[u32], parameters: Parameters) -> bool {
    let Some(forms) = forms(cell[0]) else {
        return false;
    };
    for (place, word) in cell[1..].iter().enumerate() {
        let fits = match forms.get(place) {
            None => *word == 0,
            Some(form) => match argument(*word) {
                None => false,
                Some(argument) => encode(argument, *form, parameters) == Ok(*word),
            },
        };
        if !fits {
            return false;
        }
    }
    !same_target(cell)
}

/// The argument that a word stands for, if it is one.
fn argument(word: u32) -> Option<Argument> {
    let low = word & LOW;
    match word >> 30 {
        REGISTER if (IAR..=SHR).contains(&low) => Some(Argument::Special(low)),
        REGISTER => Some(Argument::Register(low.into())),
        DIRECT => Some(Argument::Direct(low.into())),
        NUMBER => Some(Argument::Number(number(word).into())),
        _ => None,
    }
}
