//! Numbers: groups of seven bits, lowest group first, shortest spelling only.

use crate::Refusal;

/// The largest number there is, which fills three groups.
pub const LARGEST: u32 = 2_097_151;

/// The number at the front of `rest` and its length, or refusal 20 or 21.
pub fn read_number(rest: &[u8]) -> Result<(u32, usize), Refusal> {
    let mut value = 0;
    for at in 0..3 {
        let Some(&byte) = rest.get(at) else {
            return Err(20);
        };
        value += u32::from(byte % 128) << (7 * at);
        if byte < 128 {
            // A last group of zero adds nothing, so a shorter spelling exists.
            let shortest = at == 0 || byte != 0;
            return if shortest { Ok((value, at + 1)) } else { Err(21) };
        }
    }
    // A third byte with its top bit set: over the largest, or not shortest.
    Err(21)
}

/// The one spelling of a number, which must be at most `LARGEST`.
pub fn write_number(value: u32) -> Vec<u8> {
    assert!(value <= LARGEST, "not a number of the trace");
    let mut bytes = Vec::new();
    let mut left = value;
    while left >= 128 {
        bytes.push((left % 128) as u8 + 128);
        left /= 128;
    }
    bytes.push(left as u8);
    bytes
}
