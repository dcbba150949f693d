//! A counter: how often each refusal, verdict and phase occurs in random cases.

use crate::random::{case, Case};
use crate::{
    chain_verdict, check, closure, list_verdict, report, review, review_by_meaning, rule, start,
    step, unfold, Phase, Refusal, ACCEPT,
};
use crate::book::read_book;
use crate::unfold::{list_rules, need, unfold_book};
use std::collections::BTreeMap;

/// Counts by entry and by what it answered.
#[derive(Default)]
pub struct Tally {
    pub seen: BTreeMap<(&'static str, String), u64>,
}

impl Tally {
    fn note<T>(&mut self, entry: &'static str, answer: Result<T, Refusal>, name: impl Fn(T) -> String) {
        let name = match answer {
            Ok(given) => name(given),
            Err(refusal) => format!("refusal {:2}", refusal.number),
        };
        *self.seen.entry((entry, name)).or_default() += 1;
    }

    /// How often this answer was given, over all entries.
    pub fn total(&self, name: &str) -> u64 {
        self.seen.iter().filter(|((_, seen), _)| seen == name).map(|(_, count)| count).sum()
    }

    pub fn of(&self, entry: &'static str, name: &str) -> u64 {
        self.seen.get(&(entry, name.to_string())).copied().unwrap_or(0)
    }

    /// Asks every entry about one case.
    pub fn add(&mut self, case: &Case) {
        let Case { book, plan, port, words, answers, packet, rule: number, list, state } = case;
        let fresh = || words.clone();
        self.note("check", check(book), |_| "fine".into());
        self.note("rule", rule(book, *number), |_| "fine".into());
        self.note("unfold", unfold(book, &mut fresh()), |_| "fine".into());
        self.note("chain verdict", chain_verdict(book, answers, packet), verdict_name);
        self.note("list verdict", list_verdict(book, answers, packet, &mut fresh()), verdict_name);
        self.note("upper closure", closure(book, true, packet, &mut fresh()), verdict_name);
        self.note("lower closure", closure(book, false, packet, &mut fresh()), verdict_name);
        self.note("review", review(book, plan, *port, &mut fresh()), |phase| match phase {
            Phase::Refused { rule, .. } if rule == total(book) => "refused by policy".into(),
            Phase::Refused { source: 0, .. } => "refused at 0".into(),
            Phase::Refused { .. } => "refused above 0".into(),
            // Without any accept in it a list certifies every port.
            _ if accepts(book) => "certified".into(),
            _ => "certified plainly".into(),
        });
        self.note("start", start(book, plan, *port, &mut fresh()), |_| "fine".into());
        self.note("step", step(book, list, state), |next| {
            let finished = if state.phase != Phase::Running { " before" } else { "" };
            phase_name(next.phase) + finished
        });
        let lines = report(book, plan, words.len());
        let refused = lines.starts_with(b"spoof report 1\nrefused");
        self.note("report", Ok(refused), |refused| if refused { "refused" } else { "lines" }.into());
    }

    /// Whether the meaning of the case could be tried out.
    pub fn add_meaning(&mut self, case: &Case) {
        let answer = review_by_meaning(&case.book, &case.plan, case.port);
        self.note("meaning", Ok(answer), |answer| answer.map_or("none".into(), phase_name));
    }
}

fn total(book: &[u8]) -> u32 {
    check(book).map_or(0, |(_, rules)| rules as u32)
}

/// Is there an accept in the book's list?
fn accepts(book: &[u8]) -> bool {
    let Ok(book) = read_book(book) else { return false };
    let mut words = vec![0; need(&book).0];
    unfold_book(&book, &mut words).is_ok() && list_rules(&words).iter().any(|rule| rule.action == ACCEPT)
}

fn verdict_name(verdict: u32) -> String {
    if verdict == 0 { "accept" } else { "drop" }.into()
}

fn phase_name(phase: Phase) -> String {
    match phase {
        Phase::Running => "running",
        Phase::Certified => "certified",
        Phase::Refused { .. } => "refused",
    }
    .into()
}

/// Counts over the cases of so many seeds from a first one on.
pub fn count(first: u64, cases: u64) -> Tally {
    let mut tally = Tally::default();
    for seed in first..first + cases {
        tally.add(&case(seed));
    }
    tally
}
