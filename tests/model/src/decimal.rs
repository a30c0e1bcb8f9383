//! The decimal writer.

/// The bytes that the writer asks for: those of the longest value.
pub const DECIMAL_BYTES: usize = 11;

/// The reply of `decimal`; `refusal` is 0 where the value was written.
#[derive(Clone, Copy, Debug, PartialEq, Eq)]
pub struct Written {
    pub refusal: u32,
    pub count: u64,
}

/// Writes a value in decimal at the start of `bytes`; later bytes are untouched.
pub fn decimal(value: i32, bytes: &mut [u8]) -> Written {
    if bytes.len() < DECIMAL_BYTES {
        return Written {
            refusal: 18,
            count: 0,
        };
    }
    // The digits come from the last to the first.
    let mut digits = [0u8; DECIMAL_BYTES];
    let mut first = digits.len();
    let mut rest = value.unsigned_abs();
    loop {
        first -= 1;
        digits[first] = b'0' + (rest % 10) as u8;
        rest /= 10;
        if rest == 0 {
            break;
        }
    }
    if value < 0 {
        first -= 1;
        digits[first] = b'-';
    }
    let written = &digits[first..];
    bytes[..written.len()].copy_from_slice(written);
    Written {
        refusal: 0,
        count: written.len() as u64,
    }
}
