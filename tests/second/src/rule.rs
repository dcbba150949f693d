//! A rule by its number.

use crate::book::read_book;
use crate::{refuse, Refusal};

/// Where the rule's own bytes, action through expression, start and end.
pub fn rule(book: &[u8], number: u32) -> Result<(usize, usize), Refusal> {
    let book = read_book(book)?;
    let found = book.rules().find(|rule| rule.number == number);
    match found {
        Some(rule) => Ok((rule.start, rule.end)),
        None => refuse(17, number as usize),
    }
}
