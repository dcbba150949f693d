//! The review in slices: a start, and a step that takes one list rule. The step
//! is lent any words and any state, hostile ones too.

use crate::book::{read_book, Book, Expression, Test};
use crate::plan::{ranges_of, read_plan};
use crate::review::complement;
use crate::unfold::{unfold_book, ListRule};
use crate::verdict::{conditions_value, Value};
use crate::{refuse, Phase, Refusal, ACCEPT, DROP};
use std::collections::BTreeSet;

pub const MAX_RANGES: usize = 640;

/// The slice state. It may hold any numbers.
#[derive(Clone, Debug, PartialEq, Eq)]
pub struct State {
    pub port: u32,
    /// The word place in the list part.
    pub place: usize,
    pub phase: Phase,
    pub count: usize,
    pub low: [u32; MAX_RANGES],
    pub high: [u32; MAX_RANGES],
}

impl State {
    /// A running state at word 0 with these suspects, unused slots 0.
    pub fn running(port: u32, suspects: &[(u32, u32)]) -> State {
        let mut state = State {
            port,
            place: 0,
            phase: Phase::Running,
            count: 0,
            low: [0; MAX_RANGES],
            high: [0; MAX_RANGES],
        };
        state.set_suspects(suspects);
        state
    }

    /// The suspects must fit.
    pub fn set_suspects(&mut self, suspects: &[(u32, u32)]) {
        self.count = suspects.len();
        self.low = [0; MAX_RANGES];
        self.high = [0; MAX_RANGES];
        for (slot, &(low, high)) in suspects.iter().enumerate() {
            self.low[slot] = low;
            self.high[slot] = high;
        }
    }

    /// The suspects, if they stand in a set's one writing.
    pub fn suspects(&self) -> Option<Vec<(u32, u32)>> {
        if self.count > MAX_RANGES {
            return None;
        }
        let mut ranges: Vec<(u32, u32)> = Vec::new();
        for slot in 0..MAX_RANGES {
            let (low, high) = (self.low[slot], self.high[slot]);
            if slot >= self.count {
                if low != 0 || high != 0 {
                    return None;
                }
                continue;
            }
            // In 64 bits: behind a high of 4,294,967,295 no range can follow.
            let touches = match ranges.last() {
                Some(&(_, before)) => u64::from(low) <= u64::from(before) + 1,
                None => false,
            };
            if low > high || touches {
                return None;
            }
            ranges.push((low, high));
        }
        Some(ranges)
    }
}

/// Unfolds and gives unfolding's two counts and a state, running at word 0.
pub fn start(
    book: &[u8],
    plan: &[u8],
    port: u32,
    words: &mut [u32],
) -> Result<(usize, usize, State), Refusal> {
    let book = read_book(book)?;
    let ports = read_plan(plan)?;
    let ranges = ranges_of(&ports, port)?;
    let (used, rules) = unfold_book(&book, words)?;
    Ok((used, rules, State::running(port, &complement(ranges))))
}

/// Takes one list rule; on a refusal the caller's state is as it was.
pub fn step(book: &[u8], list: &[u32], state: &State) -> Result<State, Refusal> {
    let book = read_book(book)?;
    step_in(&book, list, state)
}

/// The step over a book that has been read.
pub fn step_in(book: &Book, list: &[u32], state: &State) -> Result<State, Refusal> {
    if state.phase != Phase::Running {
        return Ok(state.clone());
    }
    let (suspects, rule) = match (state.suspects(), rule_at(book, list, state.place)) {
        (Some(suspects), Some(rule)) => (suspects, rule),
        _ => return refuse(14, state.place),
    };
    let mut next = state.clone();
    if rule.action == ACCEPT {
        if let Some(source) = lowest_through(book, &rule, &suspects, state.port) {
            next.phase = Phase::Refused { rule: rule.rule, source };
            return Ok(next);
        }
    } else {
        let left = those_left(book, &rule, &suspects, state.port);
        if left.len() > MAX_RANGES {
            return refuse(15, state.place);
        }
        next.set_suspects(&left);
    }
    next.place = state.place + 3 + rule.conditions.len();
    if next.place == list.len() {
        next.phase = Phase::Certified;
    }
    Ok(next)
}

/// The rule at a place of the list part, if it is one that may be taken.
fn rule_at<'a>(book: &Book, list: &'a [u32], place: usize) -> Option<ListRule<'a>> {
    if place >= list.len() {
        return None;
    }
    let part = &list[place..];
    if part.len() < 3 {
        return None;
    }
    let (action, rule, count) = (part[0], part[1], part[2] as usize);
    if part.len() - 3 < count {
        return None;
    }
    let conditions = &part[3..3 + count];
    let starts = |&condition: &u32| book.expression_at((condition / 2) as usize).is_some();
    if (action != ACCEPT && action != DROP) || !conditions.iter().all(starts) {
        return None;
    }
    Some(ListRule { action, rule, conditions })
}

/// The value of an expression in the review, for one source.
fn value(expression: &Expression, source: u32, port: u32) -> Value {
    match &expression.test {
        Test::Always => Value::True,
        Test::Not(part) => value(part, source, port).not(),
        Test::All(parts) => {
            let values: Vec<Value> = parts.iter().map(|part| value(part, source, port)).collect();
            Value::all(&values)
        }
        Test::Source(low, high) => Value::of(*low <= source && source <= *high),
        Test::EnteredBy(asked) => Value::of(*asked == port),
        Test::Destination(..) | Test::Protocol(_) | Test::DestinationPort(..) | Test::Unread(_) => {
            Value::Unknown
        }
    }
}

fn rule_value(book: &Book, rule: &ListRule, source: u32, port: u32) -> Value {
    conditions_value(book, rule.conditions, &|expression| value(expression, source, port))
}

/// Cuts the suspects into stretches on which no condition of the rule changes.
fn stretches(book: &Book, rule: &ListRule, suspects: &[(u32, u32)]) -> Vec<(u32, u32)> {
    let mut edges: BTreeSet<u32> = BTreeSet::new();
    for &condition in rule.conditions {
        if let Some(expression) = book.expression_at((condition / 2) as usize) {
            add_edges(expression, &mut edges);
        }
    }
    let mut cut = Vec::new();
    for &(low, high) in suspects {
        let mut first = low;
        for &edge in edges.range(low..=high) {
            if edge > first {
                cut.push((first, edge - 1));
                first = edge;
            }
        }
        cut.push((first, high));
    }
    cut
}

/// The sources at which an expression can become another than one below.
fn add_edges(expression: &Expression, edges: &mut BTreeSet<u32>) {
    match &expression.test {
        Test::Not(part) => add_edges(part, edges),
        Test::All(parts) => parts.iter().for_each(|part| add_edges(part, edges)),
        Test::Source(low, high) => {
            edges.insert(*low);
            if let Some(behind) = high.checked_add(1) {
                edges.insert(behind);
            }
        }
        _ => {}
    }
}

/// The lowest suspect for which no condition is false.
fn lowest_through(book: &Book, rule: &ListRule, suspects: &[(u32, u32)], port: u32) -> Option<u32> {
    for (low, _) in stretches(book, rule, suspects) {
        if rule_value(book, rule, low, port) != Value::False {
            return Some(low);
        }
    }
    None
}

/// The suspects without those for which every condition is true.
fn those_left(book: &Book, rule: &ListRule, suspects: &[(u32, u32)], port: u32) -> Vec<(u32, u32)> {
    let mut left: Vec<(u32, u32)> = Vec::new();
    for (low, high) in stretches(book, rule, suspects) {
        if rule_value(book, rule, low, port) == Value::True {
            continue;
        }
        match left.last_mut() {
            // Stretches of one range touch; ranges of the set do not.
            Some(before) if u64::from(before.1) + 1 == u64::from(low) => before.1 = high,
            _ => left.push((low, high)),
        }
    }
    left
}
