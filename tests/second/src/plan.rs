//! Reading a plan. Whatever is wrong with it is refusal 11.

use crate::number::read_number;
use crate::{refuse, Refusal};

pub const PLAN_BYTES: usize = 32_768;

#[derive(Clone, Debug, PartialEq, Eq)]
pub struct PlanPort {
    pub number: u32,
    pub ranges: Vec<(u32, u32)>,
}

pub fn read_plan(bytes: &[u8]) -> Result<Vec<PlanPort>, Refusal> {
    if bytes.len() > PLAN_BYTES {
        return refuse(11, 0);
    }
    let mut place = 0;
    number_within(bytes, &mut place, 1, 1)?;
    let count = number_within(bytes, &mut place, 0, 32)?;
    let mut ports: Vec<PlanPort> = Vec::new();
    for _ in 0..count {
        // Strictly rising: at least one above the port before it.
        let least = ports.last().map_or(0, |before| u64::from(before.number) + 1);
        let number = number_within(bytes, &mut place, least, 31)?;
        let ranges = read_ranges(bytes, &mut place)?;
        ports.push(PlanPort { number, ranges });
    }
    if place < bytes.len() {
        return refuse(11, place);
    }
    Ok(ports)
}

fn read_ranges(bytes: &[u8], place: &mut usize) -> Result<Vec<(u32, u32)>, Refusal> {
    let most = u64::from(u32::MAX);
    let count = number_within(bytes, place, 0, 64)?;
    let mut ranges: Vec<(u32, u32)> = Vec::new();
    for _ in 0..count {
        // More than one above the high before it; behind the highest address none is.
        let least = ranges.last().map_or(0, |before| u64::from(before.1) + 2);
        let low = number_within(bytes, place, least, most)?;
        let high = number_within(bytes, place, u64::from(low), most)?;
        ranges.push((low, high));
    }
    Ok(ranges)
}

/// A number of the plan with its limits; a bad or missing one is 11 at its start.
fn number_within(bytes: &[u8], place: &mut usize, least: u64, most: u64) -> Result<u32, Refusal> {
    let start = *place;
    match read_number(bytes, start) {
        Ok((value, behind)) if u64::from(value) >= least && u64::from(value) <= most => {
            *place = behind;
            Ok(value)
        }
        _ => refuse(11, start),
    }
}

/// The ranges of the asked port, or 12.
pub fn ranges_of(ports: &[PlanPort], port: u32) -> Result<&[(u32, u32)], Refusal> {
    match ports.iter().find(|entry| entry.number == port) {
        Some(entry) => Ok(&entry.ranges),
        None => refuse(12, port as usize),
    }
}
