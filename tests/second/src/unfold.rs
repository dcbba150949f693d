//! Unfolding: the walk over the chains written as one list.

use crate::book::{read_book, Action, Book};
use crate::{refuse, Refusal, ACCEPT, DROP};

/// One rule of a list: its action, rule number and conditions.
#[derive(Clone, Copy, Debug, PartialEq, Eq)]
pub struct ListRule<'a> {
    pub action: u32,
    pub rule: u32,
    pub conditions: &'a [u32],
}

/// Unfolds the book into the first words; gives how many words and list rules.
pub fn unfold(book: &[u8], words: &mut [u32]) -> Result<(usize, usize), Refusal> {
    let book = read_book(book)?;
    unfold_book(&book, words)
}

/// The need is found by a walk of its own, so that 13 comes before the first write.
pub fn unfold_book(book: &Book, words: &mut [u32]) -> Result<(usize, usize), Refusal> {
    let (needed, rules) = need(book);
    if words.len() < needed {
        return refuse(13, needed);
    }
    let mut place = 0;
    walk(book, &mut |rule| {
        words[place] = rule.action;
        words[place + 1] = rule.rule;
        words[place + 2] = rule.conditions.len() as u32;
        place += 3;
        for &condition in rule.conditions {
            words[place] = condition;
            place += 1;
        }
    });
    Ok((needed, rules))
}

/// Words and rules of the book's list, the policy included.
pub fn need(book: &Book) -> (usize, usize) {
    let mut words = 0;
    let mut rules = 0;
    walk(book, &mut |rule| {
        words += 3 + rule.conditions.len();
        rules += 1;
    });
    (words, rules)
}

/// Shows every list rule in order, the policy last.
fn walk(book: &Book, show: &mut dyn FnMut(ListRule)) {
    walk_chain(book, 0, &mut Vec::new(), show);
    show(ListRule { action: book.policy, rule: book.total, conditions: &[] });
}

/// `conditions` holds what the chains outside ask; this chain's own are put
/// behind and taken off again at its end, so none is carried out to the caller.
fn walk_chain(book: &Book, chain: usize, conditions: &mut Vec<u32>, show: &mut dyn FnMut(ListRule)) {
    let outside = conditions.len();
    for rule in &book.chains[chain] {
        let plain = 2 * rule.expression.offset as u32;
        match rule.action {
            Action::Accept | Action::Drop | Action::Reject => {
                let action = if rule.action == Action::Accept { ACCEPT } else { DROP };
                conditions.push(plain);
                show(ListRule { action, rule: rule.number, conditions });
                conditions.pop();
            }
            Action::Log | Action::Empty => {}
            // What comes later in this chain is met only where this did not match.
            Action::Return => conditions.push(plain + 1),
            Action::Call(target) => {
                conditions.push(plain);
                walk_chain(book, target, conditions, show);
                conditions.pop();
            }
        }
    }
    conditions.truncate(outside);
}

/// Cuts the words of a good list into its rules.
pub fn list_rules(words: &[u32]) -> Vec<ListRule<'_>> {
    let mut rules = Vec::new();
    let mut place = 0;
    while place < words.len() {
        let behind = place + 3 + words[place + 2] as usize;
        rules.push(ListRule {
            action: words[place],
            rule: words[place + 1],
            conditions: &words[place + 3..behind],
        });
        place = behind;
    }
    rules
}
