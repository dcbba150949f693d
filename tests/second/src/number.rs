//! Numbers: groups of seven bits, least group first, shortest writing only.

use crate::{refuse, Refusal};

const LONGEST: usize = 5;

/// Reads the number that starts at `start`; gives its value and the place behind it.
/// Refusals: 2 where the bytes end inside or before it, 3 where it is too large
/// or not in the shortest writing; the place is always its start.
pub fn read_number(bytes: &[u8], start: usize) -> Result<(u32, usize), Refusal> {
    let mut value: u64 = 0;
    for group in 0..LONGEST {
        let place = start + group;
        if place >= bytes.len() {
            return refuse(2, start);
        }
        let byte = bytes[place];
        // Four groups hold 28 bits, so the fifth may hold four more; with the top
        // bit set it would ask for a sixth byte, which is above 15 as well.
        if group == LONGEST - 1 && byte > 15 {
            return refuse(3, start);
        }
        value += u64::from(byte % 128) << (7 * group);
        if byte < 128 {
            // A last group of 0 adds nothing: a shorter writing exists.
            if group > 0 && byte == 0 {
                return refuse(3, start);
            }
            return Ok((value as u32, place + 1));
        }
    }
    unreachable!("the fifth group always ends the number")
}

/// Writes a number in its shortest writing.
pub fn write_number(out: &mut Vec<u8>, value: u32) {
    let mut rest = value;
    while rest >= 128 {
        out.push((rest % 128) as u8 + 128);
        rest /= 128;
    }
    out.push(rest as u8);
}
