//! The fresh machine.

use crate::image::yielded;
use crate::{Parameters, RECORD_LENGTH, refusal};

/// Writes the fresh record and zeroes registers and data cells; gives 0 or the refusal.
pub fn start(
    parameters: Parameters,
    image: &[u32],
    registers: &mut [i32],
    cells: &mut [i32],
    record: &mut [i64],
) -> u32 {
    if record.len() != RECORD_LENGTH {
        return refusal::RECORD_LENGTH;
    }
    let checked = parameters
        .check()
        .and_then(|parameters| check(parameters, image, registers, cells));
    if let Err(refusal) = checked {
        return refusal;
    }
    let Parameters { k, n, s, b, t } = parameters;
    registers.fill(0);
    cells.fill(0);
    record.fill(0);
    for (place, parameter) in record.iter_mut().zip([k, n, s, b, t]) {
        *place = parameter.into();
    }
    record[crate::record::SHR] = i64::from(b) - 1;
    record[crate::record::DEEPEST] = i64::from(b) - 1;
    0
}

/// Checks 6, 9 and 10, which start and grant share.
pub fn check(
    parameters: Parameters,
    image: &[u32],
    registers: &[i32],
    cells: &[i32],
) -> Result<(), u32> {
    if image.len() != 4 * parameters.t as usize {
        return Err(6);
    }
    if registers.len() != parameters.n as usize || cells.len() != parameters.s as usize {
        return Err(9);
    }
    if !yielded(image, parameters) {
        return Err(10);
    }
    Ok(())
}
