//! The whole review, with suspects as ranges. For every expression two sets are
//! taken: the sources for which it is true, and those for which it is false.
//! (The slices go another way, by trying one source of each stretch.)

use crate::book::{read_book, Book, Expression, Test};
use crate::plan::{ranges_of, read_plan};
use crate::unfold::{list_rules, unfold_book, ListRule};
use crate::{Phase, Refusal, ACCEPT};
use std::collections::BTreeMap;

/// Rising ranges that neither touch nor overlap.
pub type Ranges = Vec<(u32, u32)>;

pub fn everything() -> Ranges {
    vec![(0, u32::MAX)]
}

pub fn nothing() -> Ranges {
    Vec::new()
}

pub fn complement(ranges: &[(u32, u32)]) -> Ranges {
    let mut outside = Vec::new();
    // In 64 bits, since the place behind the highest address is needed too.
    let mut next: u64 = 0;
    for &(low, high) in ranges {
        if next < u64::from(low) {
            outside.push((next as u32, low - 1));
        }
        next = u64::from(high) + 1;
    }
    if next <= u64::from(u32::MAX) {
        outside.push((next as u32, u32::MAX));
    }
    outside
}

pub fn intersection(a: &[(u32, u32)], b: &[(u32, u32)]) -> Ranges {
    let mut both = Vec::new();
    let (mut i, mut j) = (0, 0);
    while i < a.len() && j < b.len() {
        let low = a[i].0.max(b[j].0);
        let high = a[i].1.min(b[j].1);
        if low <= high {
            both.push((low, high));
        }
        // The range that ends first can meet nothing further on.
        if a[i].1 < b[j].1 {
            i += 1;
        } else {
            j += 1;
        }
    }
    both
}

pub fn union(a: &[(u32, u32)], b: &[(u32, u32)]) -> Ranges {
    complement(&intersection(&complement(a), &complement(b)))
}

pub fn minus(a: &[(u32, u32)], b: &[(u32, u32)]) -> Ranges {
    intersection(a, &complement(b))
}

/// For which sources an expression is true, and for which it is false, where
/// kinds 5 to 8 are unknown for all.
#[derive(Clone, Debug)]
pub struct Known {
    pub yes: Ranges,
    pub no: Ranges,
}

pub fn known(expression: &Expression, port: u32) -> Known {
    match &expression.test {
        Test::Always => Known { yes: everything(), no: nothing() },
        Test::Not(part) => known(part, port).swapped(),
        Test::All(parts) => {
            let mut both = Known { yes: everything(), no: nothing() };
            for part in parts {
                let part = known(part, port);
                both.yes = intersection(&both.yes, &part.yes);
                both.no = union(&both.no, &part.no);
            }
            both
        }
        Test::Source(low, high) => {
            let inside = if low <= high { vec![(*low, *high)] } else { nothing() };
            Known { no: complement(&inside), yes: inside }
        }
        Test::EnteredBy(asked) if *asked == port => Known { yes: everything(), no: nothing() },
        Test::EnteredBy(_) => Known { yes: nothing(), no: everything() },
        Test::Destination(..) | Test::Protocol(_) | Test::DestinationPort(..) | Test::Unread(_) => {
            Known { yes: nothing(), no: nothing() }
        }
    }
}

impl Known {
    fn swapped(self) -> Known {
        Known { yes: self.no, no: self.yes }
    }
}

/// Reviews one port; the first words hold the list afterwards.
pub fn review(book: &[u8], plan: &[u8], port: u32, words: &mut [u32]) -> Result<Phase, Refusal> {
    let book = read_book(book)?;
    let ports = read_plan(plan)?;
    let ranges = ranges_of(&ports, port)?;
    let (used, _) = unfold_book(&book, words)?;
    Ok(review_list(&book, &words[..used], ranges, port))
}

pub fn review_list(book: &Book, list: &[u32], ranges: &[(u32, u32)], port: u32) -> Phase {
    let table = known_table(book, port);
    let mut suspects = complement(ranges);
    for rule in list_rules(list) {
        if rule.action == ACCEPT {
            let through = not_refuted(&suspects, &rule, &table);
            if let Some(&(source, _)) = through.first() {
                return Phase::Refused { rule: rule.rule, source };
            }
        } else {
            suspects = left_by_drop(&suspects, &rule, &table);
        }
    }
    Phase::Certified
}

/// What is known of each rule's own expression, by its offset.
pub fn known_table(book: &Book, port: u32) -> BTreeMap<usize, Known> {
    book.rules()
        .map(|rule| (rule.expression.offset, known(&rule.expression, port)))
        .collect()
}

pub fn left_by_drop(suspects: &[(u32, u32)], rule: &ListRule, table: &BTreeMap<usize, Known>) -> Ranges {
    minus(suspects, &surely_matched(suspects, rule, table))
}

/// Those suspects for which every condition is true.
fn surely_matched(suspects: &[(u32, u32)], rule: &ListRule, table: &BTreeMap<usize, Known>) -> Ranges {
    let mut left = suspects.to_vec();
    for &condition in rule.conditions {
        let known = &table[&((condition / 2) as usize)];
        let negated = condition % 2 == 1;
        left = intersection(&left, if negated { &known.no } else { &known.yes });
    }
    left
}

/// Those suspects for which no condition is false.
fn not_refuted(suspects: &[(u32, u32)], rule: &ListRule, table: &BTreeMap<usize, Known>) -> Ranges {
    let mut left = suspects.to_vec();
    for &condition in rule.conditions {
        let known = &table[&((condition / 2) as usize)];
        let negated = condition % 2 == 1;
        left = minus(&left, if negated { &known.yes } else { &known.no });
    }
    left
}
