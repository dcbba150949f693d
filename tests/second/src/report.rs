//! The report.

use crate::book::read_book;
use crate::plan::read_plan;
use crate::review::review_list;
use crate::unfold::unfold_book;
use crate::{Phase, Refusal};

pub const HEADER: &str = "spoof report 1\n";
/// The words that the report program lends.
pub const ROOM: usize = 16_384;

/// The report on a book and a plan, with so many words of room.
pub fn report(book: &[u8], plan: &[u8], room_words: usize) -> Vec<u8> {
    let lines = match lines(book, plan, room_words) {
        Ok(lines) => lines,
        Err(refusal) => format!("refused {} place {}\n", refusal.number, refusal.place),
    };
    format!("{HEADER}{lines}").into_bytes()
}

/// Book, plan and room are judged in this order, before any line is made.
fn lines(book: &[u8], plan: &[u8], room_words: usize) -> Result<String, Refusal> {
    let book = read_book(book)?;
    let ports = read_plan(plan)?;
    let mut words = vec![0; room_words];
    let (used, rules) = unfold_book(&book, &mut words)?;
    let mut lines = format!("rules {} list {}\n", book.total, rules);
    for port in &ports {
        let answer = match review_list(&book, &words[..used], &port.ranges, port.number) {
            Phase::Refused { rule, source } => {
                format!("refused rule {} source {}", rule, dotted(source))
            }
            _ => "certified".to_string(),
        };
        lines += &format!("port {} {}\n", port.number, answer);
    }
    Ok(lines)
}

fn dotted(source: u32) -> String {
    let [a, b, c, d] = source.to_be_bytes();
    format!("{a}.{b}.{c}.{d}")
}
