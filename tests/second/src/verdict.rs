//! The chain verdict, the list verdict and the closures.

use crate::book::{read_book, Action, Book, Expression, Test};
use crate::unfold::{list_rules, unfold_book};
use crate::{refuse, Packet, Refusal, ACCEPT, DROP};

/// The three values of conditions and expressions.
#[derive(Clone, Copy, Debug, PartialEq, Eq)]
pub enum Value {
    False,
    Unknown,
    True,
}

impl Value {
    pub fn of(truth: bool) -> Value {
        if truth {
            Value::True
        } else {
            Value::False
        }
    }

    pub fn not(self) -> Value {
        match self {
            Value::False => Value::True,
            Value::Unknown => Value::Unknown,
            Value::True => Value::False,
        }
    }

    pub fn all(parts: &[Value]) -> Value {
        if parts.contains(&Value::False) {
            Value::False
        } else if parts.contains(&Value::Unknown) {
            Value::Unknown
        } else {
            Value::True
        }
    }
}

fn within(low: u32, value: u32, high: u32) -> bool {
    low <= value && value <= high
}

/// Unread match k is bit k mod 8 of answer byte k / 8.
fn answer(answers: &[u8], k: u32) -> bool {
    let byte = answers[(k / 8) as usize];
    byte >> (k % 8) & 1 == 1
}

fn check_answers(answers: &[u8]) -> Result<(), Refusal> {
    if answers.len() != 32 {
        return refuse(16, answers.len());
    }
    Ok(())
}

/// Does the packet match, in plain two-valued logic?
fn matches(expression: &Expression, answers: &[u8], packet: &Packet) -> bool {
    match &expression.test {
        Test::Always => true,
        Test::Not(part) => !matches(part, answers, packet),
        Test::All(parts) => parts.iter().all(|part| matches(part, answers, packet)),
        Test::Source(low, high) => within(*low, packet.source, *high),
        Test::EnteredBy(port) => packet.input_port == *port,
        Test::Destination(low, high) => within(*low, packet.destination, *high),
        Test::Protocol(protocol) => packet.protocol == *protocol,
        Test::DestinationPort(low, high) => within(*low, packet.destination_port, *high),
        Test::Unread(k) => answer(answers, *k),
    }
}

/// The verdict of the walk over the chains themselves, without any list.
pub fn chain_verdict(book: &[u8], answers: &[u8], packet: &Packet) -> Result<u32, Refusal> {
    let book = read_book(book)?;
    check_answers(answers)?;
    // A matching return in the entry, or its end, gives the policy.
    Ok(run_chain(&book, 0, answers, packet).unwrap_or(book.policy))
}

/// Runs one chain: the decision, or nothing where it ends undecided.
fn run_chain(book: &Book, chain: usize, answers: &[u8], packet: &Packet) -> Option<u32> {
    for rule in &book.chains[chain] {
        if !matches(&rule.expression, answers, packet) {
            continue;
        }
        match rule.action {
            Action::Accept => return Some(ACCEPT),
            Action::Drop | Action::Reject => return Some(DROP),
            Action::Log | Action::Empty => {}
            Action::Return => return None,
            Action::Call(target) => {
                let decided = run_chain(book, target, answers, packet);
                if decided.is_some() {
                    return decided;
                }
            }
        }
    }
    None
}

/// The value of an expression for a packet; without answers kind 8 is unknown.
fn value(expression: &Expression, answers: Option<&[u8]>, packet: &Packet) -> Value {
    match &expression.test {
        Test::Always => Value::True,
        Test::Not(part) => value(part, answers, packet).not(),
        Test::All(parts) => {
            let values: Vec<Value> = parts.iter().map(|part| value(part, answers, packet)).collect();
            Value::all(&values)
        }
        Test::Source(low, high) => Value::of(within(*low, packet.source, *high)),
        Test::EnteredBy(port) => Value::of(packet.input_port == *port),
        Test::Destination(low, high) => Value::of(within(*low, packet.destination, *high)),
        Test::Protocol(protocol) => Value::of(packet.protocol == *protocol),
        Test::DestinationPort(low, high) => Value::of(within(*low, packet.destination_port, *high)),
        Test::Unread(k) => match answers {
            Some(answers) => Value::of(answer(answers, *k)),
            None => Value::Unknown,
        },
    }
}

/// The value of all conditions of one list rule, for any way to judge an expression.
pub fn conditions_value(
    book: &Book,
    conditions: &[u32],
    judge: &dyn Fn(&Expression) -> Value,
) -> Value {
    let mut values = Vec::new();
    for &condition in conditions {
        let expression = book
            .expression_at((condition / 2) as usize)
            .expect("a condition names a rule's own expression");
        let plain = judge(expression);
        values.push(if condition % 2 == 1 { plain.not() } else { plain });
    }
    Value::all(&values)
}

/// What the first matching rule of the list does; `in_doubt` is the action that
/// is taken where the match is unknown, the other one being skipped.
fn judge_list(
    book: &Book,
    list: &[u32],
    answers: Option<&[u8]>,
    packet: &Packet,
    in_doubt: u32,
) -> u32 {
    for rule in list_rules(list) {
        let judge = |expression: &Expression| value(expression, answers, packet);
        match conditions_value(book, rule.conditions, &judge) {
            Value::True => return rule.action,
            Value::Unknown if rule.action == in_doubt => return rule.action,
            _ => {}
        }
    }
    unreachable!("the policy has no conditions, so it always matches")
}

/// The verdict of the unfolded list.
pub fn list_verdict(
    book: &[u8],
    answers: &[u8],
    packet: &Packet,
    words: &mut [u32],
) -> Result<u32, Refusal> {
    let book = read_book(book)?;
    check_answers(answers)?;
    let (used, _) = unfold_book(&book, words)?;
    // With all answers at hand no doubt comes up.
    Ok(judge_list(&book, &words[..used], Some(answers), packet, ACCEPT))
}

/// The verdict of the upper or the lower closure.
pub fn closure(
    book: &[u8],
    upper: bool,
    packet: &Packet,
    words: &mut [u32],
) -> Result<u32, Refusal> {
    let book = read_book(book)?;
    let (used, _) = unfold_book(&book, words)?;
    let in_doubt = if upper { ACCEPT } else { DROP };
    Ok(judge_list(&book, &words[..used], None, packet, in_doubt))
}
