//! Calls between chains: loops and weight.

use crate::book::{Action, Rule};

/// The chains that one chain calls, in any rule and under any match.
fn calls_of(chain: &[Rule]) -> Vec<usize> {
    let mut called = Vec::new();
    for rule in chain {
        if let Action::Call(target) = rule.action {
            called.push(target);
        }
    }
    called
}

/// Does `from` reach `to` by one or more calls? Depth-first.
fn reaches(chains: &[Vec<Rule>], from: usize, to: usize) -> bool {
    let mut seen = vec![false; chains.len()];
    let mut waiting = calls_of(&chains[from]);
    while let Some(chain) = waiting.pop() {
        if chain == to {
            return true;
        }
        if !seen[chain] {
            seen[chain] = true;
            waiting.extend(calls_of(&chains[chain]));
        }
    }
    false
}

pub fn lowest_looping_chain(chains: &[Vec<Rule>]) -> Option<usize> {
    (0..chains.len()).find(|&chain| reaches(chains, chain, chain))
}

/// The weight of a chain of a loop-free book. A chain may weigh far more than
/// 128 bits hold; all that matters above the limit is that it stays above.
pub fn weight(chains: &[Vec<Rule>], chain: usize) -> u128 {
    let mut known = vec![None; chains.len()];
    weight_with(chains, chain, &mut known)
}

fn weight_with(chains: &[Vec<Rule>], chain: usize, known: &mut Vec<Option<u128>>) -> u128 {
    if let Some(sum) = known[chain] {
        return sum;
    }
    let mut sum: u128 = 0;
    for rule in &chains[chain] {
        sum = sum.saturating_add(1);
        if let Action::Call(target) = rule.action {
            sum = sum.saturating_add(weight_with(chains, target, known));
        }
    }
    known[chain] = Some(sum);
    sum
}
