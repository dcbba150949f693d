//! What a review means, tried out: every answer to every unread place. It knows
//! neither suspects nor three values, and serves small books only.

use crate::book::{read_book, Book, Expression, Test};
use crate::plan::{ranges_of, read_plan};
use crate::unfold::{list_rules, need, unfold_book, ListRule};
use crate::{Phase, ACCEPT};
use std::collections::BTreeSet;

const MOST_PLACES: usize = 16;
const MOST_WORK: usize = 1 << 25;

/// Certified, or the first list rule that can accept a source outside the port's
/// ranges, and the lowest such source; nothing for refused input or too much work.
pub fn review_by_meaning(book: &[u8], plan: &[u8], port: u32) -> Option<Phase> {
    review_by_meaning_within(book, plan, port, MOST_WORK)
}

/// The same, with another limit on the work: sources times words times answers.
pub fn review_by_meaning_within(book: &[u8], plan: &[u8], port: u32, most_work: usize) -> Option<Phase> {
    let book = read_book(book).ok()?;
    let ports = read_plan(plan).ok()?;
    let ranges = ranges_of(&ports, port).ok()?;
    if need(&book).0 > 10_000 {
        return None;
    }
    let mut words = vec![0; need(&book).0];
    unfold_book(&book, &mut words).ok()?;
    let list = list_rules(&words);
    let places: usize = list.iter().map(|rule| places_of_rule(&book, rule)).sum();
    let sources = sources_to_try(&book, ranges);
    if places > MOST_PLACES || (sources.len() * words.len()) << places > most_work {
        return None;
    }
    let mut best: Option<(usize, u32)> = None;
    for &source in &sources {
        for answers in 0..1u32 << places {
            let decided = deciding_rule(&book, &list, source, port, answers);
            if list[decided].action == ACCEPT {
                let found = (decided, source);
                best = Some(best.map_or(found, |before| before.min(found)));
            }
        }
    }
    Some(match best {
        None => Phase::Certified,
        Some((at, source)) => Phase::Refused { rule: list[at].rule, source },
    })
}

fn expression_of(book: &Book, condition: u32) -> &Expression {
    book.expression_at((condition / 2) as usize).expect("the book's own list")
}

fn places_of_rule(book: &Book, rule: &ListRule) -> usize {
    rule.conditions.iter().map(|&condition| places_of(expression_of(book, condition))).sum()
}

fn places_of(expression: &Expression) -> usize {
    match &expression.test {
        Test::Not(part) => places_of(part),
        Test::All(parts) => parts.iter().map(places_of).sum(),
        Test::Always | Test::Source(..) | Test::EnteredBy(_) => 0,
        _ => 1,
    }
}

/// More than one source of each stretch between the edges of book and plan, the
/// lowest of it among them; only those outside the port's ranges.
fn sources_to_try(book: &Book, ranges: &[(u32, u32)]) -> Vec<u32> {
    let mut edges = vec![0, u32::MAX];
    for rule in book.rules() {
        note_edges(&rule.expression, &mut edges);
    }
    for &(low, high) in ranges {
        edges.extend([low, high]);
    }
    let mut sources = BTreeSet::new();
    for edge in edges {
        // Going round at either end only names the other end, which is tried anyway.
        sources.extend([edge.wrapping_sub(1), edge, edge.wrapping_add(1)]);
    }
    let outside = |source: &u32| !ranges.iter().any(|&(low, high)| low <= *source && *source <= high);
    sources.into_iter().filter(outside).collect()
}

fn note_edges(expression: &Expression, edges: &mut Vec<u32>) {
    match &expression.test {
        Test::Not(part) => note_edges(part, edges),
        Test::All(parts) => parts.iter().for_each(|part| note_edges(part, edges)),
        Test::Source(low, high) => edges.extend([*low, *high]),
        _ => {}
    }
}

/// Which list rule decides. Each unread place takes the next bit of the answers,
/// so nothing may be left out on the way.
fn deciding_rule(book: &Book, list: &[ListRule], source: u32, port: u32, answers: u32) -> usize {
    let mut bits = answers;
    for (at, rule) in list.iter().enumerate() {
        let mut met = true;
        for &condition in rule.conditions {
            let plain = truth(expression_of(book, condition), source, port, &mut bits);
            met &= plain != (condition % 2 == 1);
        }
        if met {
            return at;
        }
    }
    unreachable!("the policy has no conditions")
}

fn truth(expression: &Expression, source: u32, port: u32, bits: &mut u32) -> bool {
    match &expression.test {
        Test::Always => true,
        Test::Not(part) => !truth(part, source, port, bits),
        Test::All(parts) => {
            let mut all = true;
            for part in parts {
                all &= truth(part, source, port, bits);
            }
            all
        }
        Test::Source(low, high) => *low <= source && source <= *high,
        Test::EnteredBy(asked) => *asked == port,
        _ => {
            let bit = *bits & 1 == 1;
            *bits >>= 1;
            bit
        }
    }
}
