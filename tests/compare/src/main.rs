//! Compares the proved reviewer, through its static library, with the second program, on random and damaged inputs.
//!
//! usage: compare [CASES [FIRST]]    (100,000 cases from seed 0)
//! Every answer and all lent memory after every call must agree. It prints how often each answer occurred, and fails if a
//! refusal of document 01 never did.

use second::meaning::review_by_meaning_within;
use second::random::{case, Case};
use second::tally::Tally;
use second::{Phase, Refusal};
use std::fmt::Debug;

type Theirs<T> = Result<T, tannenlaut::Refusal>;

/// A state as it crosses to the library.
fn words_of(state: &second::State) -> tannenlaut::State {
    let mut words = [0; 1286];
    let (phase, rule, source) = match state.phase {
        Phase::Running => (tannenlaut::RUNNING, 0, 0),
        Phase::Certified => (tannenlaut::CERTIFIED, 0, 0),
        Phase::Refused { rule, source } => (tannenlaut::REFUSED, rule, source),
    };
    words[..6].copy_from_slice(&[state.port, cut(state.place), phase, rule, source, cut(state.count)]);
    words[6..646].copy_from_slice(&state.low);
    words[646..].copy_from_slice(&state.high);
    words
}

/// A number as the library tells it.
fn cut(number: usize) -> u32 {
    number.min(u32::MAX as usize) as u32
}

/// A state whose place and count fit the words that it crosses in: others cannot be handed over.
fn crossing(state: &second::State) -> second::State {
    let mut state = state.clone();
    state.place = cut(state.place) as usize;
    state.count = cut(state.count) as usize;
    state
}

fn same<T: PartialEq + Debug, U: Debug>(
    seed: u64, entry: &str, ours: Theirs<T>, second: Result<U, Refusal>, as_words: impl Fn(U) -> T,
) {
    let second = second.map(as_words).map_err(|refusal| (refusal.number, cut(refusal.place)));
    let ours = ours.map_err(|refusal| (refusal.number, refusal.place));
    assert_eq!(ours, second, "{entry} of seed {seed}");
}

fn phase_words(phase: Phase) -> [u32; 3] {
    match phase {
        Phase::Running => [tannenlaut::RUNNING, 0, 0],
        Phase::Certified => [tannenlaut::CERTIFIED, 0, 0],
        Phase::Refused { rule, source } => [tannenlaut::REFUSED, rule, source],
    }
}

/// Two runs of an entry that is lent words: the answers and the words after them.
fn with_words<T: PartialEq + Debug, U: Debug>(
    seed: u64, entry: &str, words: &[u32], ours: impl Fn(&mut [u32]) -> Theirs<T>,
    second: impl Fn(&mut [u32]) -> Result<U, Refusal>, as_words: impl Fn(U) -> T,
) {
    let (mut a, mut b) = (words.to_vec(), words.to_vec());
    same(seed, entry, ours(&mut a), second(&mut b), as_words);
    assert!(a == b, "words after {entry} of seed {seed}");
}

fn compare_reading(seed: u64, case: &Case) {
    let (book, packet) = (&case.book[..], &case.packet);
    let words = [packet.source, packet.destination, packet.protocol, packet.destination_port, packet.input_port];
    let pair = |(a, b): (usize, usize)| (cut(a), cut(b));
    same(seed, "check", tannenlaut::check(book), second::check(book), pair);
    same(seed, "rule", tannenlaut::rule(book, case.rule), second::rule(book, case.rule), pair);
    with_words(seed, "unfold", &case.words, |w| tannenlaut::unfold(book, w), |w| second::unfold(book, w), pair);
    same(
        seed, "chain verdict", tannenlaut::chain_verdict(book, &case.answers, &words),
        second::chain_verdict(book, &case.answers, packet), |v| v,
    );
    with_words(
        seed, "list verdict", &case.words, |w| tannenlaut::list_verdict(book, &case.answers, &words, w),
        |w| second::list_verdict(book, &case.answers, packet, w), |v| v,
    );
    for upper in [true, false] {
        with_words(
            seed, "closure", &case.words, |w| tannenlaut::closure(book, upper, &words, w),
            |w| second::closure(book, upper, packet, w), |v| v,
        );
    }
}

fn compare_review(seed: u64, case: &Case) {
    let (book, plan, port) = (&case.book[..], &case.plan[..], case.port);
    with_words(
        seed, "review", &case.words, |w| tannenlaut::review(book, plan, port, w),
        |w| second::review(book, plan, port, w), phase_words,
    );
    let mut state = [9; 1286];
    let (mut a, mut b) = (case.words.clone(), case.words.clone());
    let started = second::start(book, plan, port, &mut b);
    let expected = started.as_ref().map_or([9; 1286], |(_, _, state)| words_of(state));
    same(seed, "start", tannenlaut::start(book, plan, port, &mut a, &mut state), started.clone(), |(w, r, _)| (cut(w), cut(r)));
    assert!(a == b && state == expected, "words or state after start of seed {seed}");
    if let Ok((count, rules, first)) = started {
        run_slices(seed, case, &a[..count], rules, first, state);
    }
    let given = crossing(&case.state);
    one_step(seed, case, &case.list, &given, words_of(&given));
}

/// From a start to the end, call by call.
fn run_slices(seed: u64, case: &Case, list: &[u32], rules: usize, mut plain: second::State, mut words: tannenlaut::State) {
    for _ in 0..rules.min(40) {
        let Some((next, after)) = one_step(seed, case, list, &plain, words) else { panic!("a slice of seed {seed} was refused") };
        (plain, words) = (next, after);
    }
}

fn one_step(
    seed: u64, case: &Case, list: &[u32], plain: &second::State, words: tannenlaut::State,
) -> Option<(second::State, tannenlaut::State)> {
    let mut after = words;
    let ours = tannenlaut::step(&case.book, list, &mut after);
    let second = second::step(&case.book, list, plain);
    let expected = second.as_ref().map_or(words, |next| if plain.phase == Phase::Running { words_of(next) } else { words });
    same(seed, "step", ours, second.clone(), |next| phase_words(next.phase)[0]);
    assert!(after == expected, "state after a step of seed {seed}");
    second.ok().map(|next| (next, after))
}

fn compare_report(seed: u64, case: &Case) {
    let mut words = case.words.clone();
    let expected = second::report(&case.book, &case.plan, words.len());
    let mut text = vec![7; 4096];
    let bytes = tannenlaut::report(&case.book, &case.plan, &mut words, &mut text).expect("4,096 bytes are enough");
    assert_eq!(bytes as usize, expected.len(), "bytes of the report of seed {seed}");
    assert!(text[..expected.len()] == expected && text[expected.len()..].iter().all(|&b| b == 7), "report of seed {seed}");
    let mut short = vec![7; expected.len() - 1];
    let refused = tannenlaut::report(&case.book, &case.plan, &mut words, &mut short);
    assert_eq!(refused, Err(tannenlaut::Refusal { number: 19, place: bytes }), "a short text of seed {seed}");
    assert!(short.iter().all(|&b| b == 7), "a short text of seed {seed}");
}

/// The review's answer against its meaning: every assignment of answers to the unread places tried, where there are few of them.
/// Tells whether there were.
fn compare_meaning(seed: u64, case: &Case) -> bool {
    let Some(phase) = review_by_meaning_within(&case.book, &case.plan, case.port, 20_000) else { return false };
    let mut words = vec![0; 16_384];
    match tannenlaut::review(&case.book, &case.plan, case.port, &mut words) {
        Ok(told) => assert_eq!(told, phase_words(phase), "the meaning of the review of seed {seed}"),
        Err(refusal) => assert_eq!(refusal.number, 13, "the review of seed {seed}"),
    }
    true
}

fn main() {
    let mut arguments = std::env::args().skip(1).map(|text| text.parse().expect("a number"));
    let cases: u64 = arguments.next().unwrap_or(100_000);
    let first: u64 = arguments.next().unwrap_or(0);
    let mut tally = Tally::default();
    let mut meanings = 0;
    for seed in first..first + cases {
        let case = case(seed);
        compare_reading(seed, &case);
        compare_review(seed, &case);
        compare_report(seed, &case);
        meanings += u64::from(compare_meaning(seed, &case));
        tally.add(&case);
        if (seed + 1 - first) % 10_000 == 0 {
            eprintln!("{} cases agree", seed + 1 - first);
        }
    }
    for ((entry, name), count) in &tally.seen {
        println!("{entry:14} {name:18} {count}");
    }
    let never: Vec<u32> = (1..=17).filter(|n| tally.total(&format!("refusal {n:2}")) == 0).collect();
    assert!(never.is_empty(), "refusals that never occurred: {never:?}");
    assert!(meanings > 0, "no review was compared with its meaning");
    println!("{cases} cases agree, {meanings} reviews with their meaning");
}
