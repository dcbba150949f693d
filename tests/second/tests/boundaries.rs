//! Each refusal at its boundary and one past it, and the order of refusals.

use second::random::{book_of_bytes, heavy_chains, numbers, spaced_suspects, weight_book, Random};
use second::*;

fn refused<T>(number: u32, place: usize) -> Result<T, Refusal> {
    Err(Refusal { number, place })
}

const MOST: u32 = u32::MAX;

/// A book of one chain with one rule: accept with this expression, at offset 5.
fn with(expression: &[u8]) -> Vec<u8> {
    let mut book = vec![1, 1, 1, 1, 0];
    book.extend(expression);
    book
}

fn fine(book: &[u8]) {
    assert!(check(book).is_ok(), "{:?} of {:?}", check(book), &book[..book.len().min(40)]);
}

fn c1() -> Vec<u8> {
    vec![
        1, 1, 1, 2, 1, 2, 2, 4, 0, 1, 3, 0x80, 0x80, 0xA0, 0x85, 0x0C, 0xFF, 0x81, 0xA0, 0x85, 0x0C, 0, 0,
    ]
}

#[test]
fn refusal_1() {
    let mut random = Random::new(1);
    for length in [65_534, 65_535] {
        let book = book_of_bytes(&mut random, length);
        assert_eq!(book.len(), length);
        assert_eq!(check(&book), Ok((1, 500)));
    }
    let long = book_of_bytes(&mut random, 65_536);
    assert_eq!(long.len(), 65_536);
    assert_eq!(check(&long), refused(1, 0));
    // Length goes first, whatever the bytes.
    assert_eq!(check(&[0xFF; 65_536]), refused(1, 0));
    assert_eq!(check(&[0xFF; 65_535]), refused(3, 0));
}

#[test]
fn refusal_2() {
    let book = c1();
    let starts = [0, 1, 2, 3, 4, 5, 6, 7, 8, 9, 10, 11, 16, 21, 22];
    for length in 0..book.len() {
        let place = *starts.iter().rev().find(|&&start| start <= length).unwrap();
        assert_eq!(check(&book[..length]), refused(2, place), "{length} bytes");
    }
    fine(&book);
}

#[test]
fn refusal_3_at_every_number() {
    let book = c1();
    let starts = [0, 1, 2, 3, 4, 5, 6, 7, 8, 9, 10, 11, 16, 21, 22];
    for at in 0..starts.len() {
        let end = if at + 1 < starts.len() { starts[at + 1] } else { book.len() };
        for odd in [&[0x81, 0x00][..], &[0xFF, 0xFF, 0xFF, 0xFF, 0x10], &[0x80; 7]] {
            let mut bad = book.clone();
            bad.splice(starts[at]..end, odd.iter().copied());
            assert_eq!(check(&bad), refused(3, starts[at]));
        }
    }
}

#[test]
fn refusal_4_of_the_head() {
    assert_eq!(check(&[0, 1, 0, 0]), refused(4, 0));
    assert_eq!(check(&[2, 1, 0, 0]), refused(4, 0));
    assert_eq!(check(&[1, 0, 0]), refused(4, 1));
    for chains in [1, 64] {
        let mut book = vec![1, chains, 0];
        book.extend(vec![0; chains as usize]);
        assert_eq!(check(&book), Ok((chains as usize, 0)));
    }
    let mut book = vec![1, 65, 0];
    book.extend([0; 65]);
    assert_eq!(check(&book), refused(4, 1));
    assert_eq!(check(&[1, 1, 2, 0]), refused(4, 2));
    fine(&[1, 1, 1, 0]);
}

#[test]
fn refusal_4_of_rule_counts() {
    let rules = |count: usize| vec![0; 2 * count];
    let book = |counts: &[usize]| {
        let mut out = numbers(&[1, counts.len() as u32, 1]);
        for &count in counts {
            out.extend(numbers(&[count as u32]));
            out.extend(rules(count));
        }
        out
    };
    assert_eq!(check(&book(&[1_024])), Ok((1, 1_024)));
    assert_eq!(check(&book(&[1_024, 0])), Ok((2, 1_024)));
    assert_eq!(check(&book(&[1_000, 24])), Ok((2, 1_024)));
    assert_eq!(check(&book(&[1_025])), refused(4, 3));
    assert_eq!(check(&book(&[1_024, 1])), refused(4, 3 + 2 + 2_048));
    assert_eq!(check(&book(&[1_000, 25])), refused(4, 3 + 2 + 2_000));
    // One and the largest number must not wrap to 0.
    let mut wrapping = numbers(&[1, 2, 1, 1, 0, 0]);
    wrapping.extend(numbers(&[MOST]));
    assert_eq!(check(&wrapping), refused(4, 6));
    // The count is judged before any rule is missed.
    assert_eq!(check(&numbers(&[1, 1, 0, 1_025])), refused(4, 3));
    assert_eq!(check(&numbers(&[1, 1, 0, 1_024])), refused(2, 5));
}

#[test]
fn refusal_4_of_rules() {
    for action in 0..6 {
        fine(&[1, 1, 0, 1, action, 0]);
    }
    fine(&[1, 2, 0, 1, 6, 1, 0, 0]);
    assert_eq!(check(&[1, 2, 0, 1, 7, 1, 0, 0]), refused(4, 4));
    for kind in [0, 1, 2, 3, 4, 5, 6, 7, 8] {
        assert_ne!(check(&with(&[kind])), refused(4, 5));
    }
    assert_eq!(check(&with(&[9])), refused(4, 5));
    assert_eq!(check(&with(&numbers(&[MOST]))), refused(4, 5));
    for (count, legal) in [(0, false), (1, false), (2, true), (16, true), (17, false), (18, false)] {
        let mut expression = vec![2, count];
        expression.extend(vec![0; count as usize]);
        let expected = if legal { Ok((1, 1)) } else { refused(4, 6) };
        assert_eq!(check(&with(&expression)), expected, "{count}");
    }
    let fields = [(4, 31), (6, 255), (8, 255)];
    for (kind, most) in fields {
        fine(&with(&numbers(&[kind, 0])));
        fine(&with(&numbers(&[kind, most])));
        assert_eq!(check(&with(&numbers(&[kind, most + 1]))), refused(4, 6));
        assert_eq!(check(&with(&numbers(&[kind, MOST]))), refused(4, 6));
    }
    fine(&with(&numbers(&[7, 65_535, 65_535])));
    fine(&with(&numbers(&[7, 65_535, 0])));
    // The low is judged before the high is read.
    assert_eq!(check(&with(&numbers(&[7, 65_536]))), refused(4, 6));
    assert_eq!(check(&with(&numbers(&[7, 0, 65_536]))), refused(4, 7));
    for kind in [3, 5] {
        fine(&with(&numbers(&[kind, MOST, MOST])));
        fine(&with(&numbers(&[kind, MOST, 0])));
    }
}

#[test]
fn refusal_5() {
    let calling = |chains: u8, target: u32| {
        let mut book = vec![1, chains, 0, 1, 6];
        book.extend(numbers(&[target, 0]));
        book.extend(vec![0; chains as usize - 1]);
        book
    };
    for chains in [2, 3, 64] {
        fine(&calling(chains, 1));
        fine(&calling(chains, u32::from(chains) - 1));
        assert_eq!(check(&calling(chains, 0)), refused(5, 5));
        assert_eq!(check(&calling(chains, u32::from(chains))), refused(5, 5));
        assert_eq!(check(&calling(chains, MOST)), refused(5, 5));
    }
    assert_eq!(check(&calling(1, 1)), refused(5, 5));
    // Before the expression is looked at.
    assert_eq!(check(&[1, 1, 0, 1, 6, 0]), refused(5, 5));
    // A chain that calls itself is 9, and a bad writing of the number 3.
    assert_eq!(check(&[1, 2, 0, 0, 1, 6, 1, 0]), refused(9, 1));
    assert_eq!(check(&[1, 2, 0, 1, 6, 0x80, 0]), refused(3, 5));
}

#[test]
fn refusal_6() {
    let nots = |count: usize, end: &[u8]| {
        let mut expression = vec![1; count];
        expression.extend(end);
        with(&expression)
    };
    // Fifteen nots put the operand at level 16.
    fine(&nots(15, &[0]));
    fine(&nots(15, &[3, 1, 2]));
    assert_eq!(check(&nots(16, &[0])), refused(6, 21));
    // Even where the bytes end, or the kind is none, or no number.
    assert_eq!(check(&nots(16, &[])), refused(6, 21));
    assert_eq!(check(&nots(16, &[9])), refused(6, 21));
    assert_eq!(check(&nots(16, &[0x80, 0])), refused(6, 21));
    // At level 16 these are judged.
    assert_eq!(check(&nots(15, &[])), refused(2, 20));
    assert_eq!(check(&nots(15, &[9])), refused(4, 20));
    // A conjunction at level 16: its count first, then the level of its operand.
    assert_eq!(check(&nots(15, &[2])), refused(2, 21));
    assert_eq!(check(&nots(15, &[2, 1])), refused(4, 21));
    assert_eq!(check(&nots(15, &[2, 17])), refused(4, 21));
    assert_eq!(check(&nots(15, &[2, 2])), refused(6, 22));
    fine(&nots(14, &[2, 2, 0, 0]));
    // The level goes back up behind an operand.
    let mut expression = vec![2, 2];
    expression.extend([1; 14]);
    expression.push(0);
    expression.extend([1; 14]);
    expression.push(0);
    fine(&with(&expression));
    expression.insert(17, 1);
    assert_eq!(check(&with(&expression)), refused(6, 5 + 2 + 15 + 15));
}

#[test]
fn refusal_7() {
    // 32 conjunctions of 16 are 512.
    let book = |last: &[u8]| {
        let mut out = numbers(&[1, 2, 1, 31]);
        for _ in 0..31 {
            out.extend([1, 2, 16]);
            out.extend([3, 9, 1].repeat(16));
        }
        out.push(2);
        out.extend([1, 2, 16]);
        out.extend([3, 1, 9].repeat(16));
        out.push(0);
        out.extend(last);
        out
    };
    fine(&book(&[0]));
    fine(&book(&[5, 1, 2]));
    let place = book(&[]).len();
    assert_eq!(check(&book(&[3, 1, 2])), refused(7, place));
    // At the kind, before its low and high.
    assert_eq!(check(&book(&[3])), refused(7, place));
    assert_eq!(check(&book(&[3, 0x80, 0])), refused(7, place));
    assert_eq!(check(&book(&[1, 3])), refused(7, place + 1));
    assert_eq!(check(&book(&[9])), refused(4, place));
    // Level 17 goes before.
    let mut deep = vec![1; 16];
    deep.push(3);
    assert_eq!(check(&book(&deep)), refused(6, place + 16));
}

#[test]
fn refusal_8() {
    fine(&c1());
    for extra in [&[0][..], &[0x80], &[1, 2, 3]] {
        let mut book = c1();
        book.extend(extra);
        assert_eq!(check(&book), refused(8, 23));
    }
    // Before 9 and 10.
    assert_eq!(check(&[1, 2, 0, 0, 1, 6, 1, 0, 5]), refused(8, 8));
    let mut heavy = weight_book(&mut Random::new(3), 16_385).bytes();
    let length = heavy.len();
    heavy.push(0);
    assert_eq!(check(&heavy), refused(8, length));
}

/// A book whose chains make these calls, each under kind 0.
fn calls(chains: usize, calls: &[(usize, usize)]) -> Vec<u8> {
    let mut out = numbers(&[1, chains as u32, 1]);
    for chain in 0..chains {
        let own: Vec<_> = calls.iter().filter(|(from, _)| *from == chain).collect();
        out.push(own.len() as u8);
        own.iter().for_each(|(_, to)| out.extend(numbers(&[6, *to as u32, 0])));
    }
    out
}

#[test]
fn refusal_9() {
    assert_eq!(check(&calls(4, &[(0, 1), (1, 2), (2, 3)])), Ok((4, 3)));
    // A diamond is no loop.
    fine(&calls(4, &[(0, 1), (0, 2), (1, 3), (2, 3)]));
    fine(&calls(4, &[(3, 2), (2, 1)]));
    assert_eq!(check(&calls(4, &[(2, 2)])), refused(9, 2));
    assert_eq!(check(&calls(4, &[(1, 2), (2, 3), (3, 1)])), refused(9, 1));
    // On the loop, not leading to it; of two loops the lowest chain.
    assert_eq!(check(&calls(5, &[(0, 1), (1, 3), (3, 4), (4, 3)])), refused(9, 3));
    assert_eq!(check(&calls(6, &[(5, 5), (2, 4), (4, 2)])), refused(9, 2));
    assert_eq!(check(&calls(6, &[(3, 3), (5, 1), (1, 5)])), refused(9, 1));
    // The longest loop, and one only in the last chain.
    let mut ring: Vec<_> = (1..63).map(|chain| (chain, chain + 1)).collect();
    fine(&calls(64, &ring));
    ring.push((63, 1));
    assert_eq!(check(&calls(64, &ring)), refused(9, 1));
    assert_eq!(check(&calls(64, &[(63, 63)])), refused(9, 63));
    // Under a match that is never true, behind an accept of all.
    assert_eq!(check(&[1, 2, 0, 0, 2, 0, 0, 6, 1, 1, 0]), refused(9, 1));
    // Before 10: the entry is too heavy and chain 63 calls itself.
    let mut heavy = heavy_with_call();
    fine_but(&heavy, 10, 0);
    heavy.truncate(heavy.len() - 1);
    heavy.extend(numbers(&[1, 6, 63, 0]));
    fine_but(&heavy, 9, 63);
}

fn fine_but(book: &[u8], number: u32, place: usize) {
    assert_eq!(check(book), refused(number, place));
}

/// The entry calls chain 1, each of 1 to 62 calls the next sixteen times.
fn heavy_with_call() -> Vec<u8> {
    let mut all = vec![(0, 1)];
    for chain in 1..63 {
        all.extend(vec![(chain, chain + 1); 16]);
    }
    calls(64, &all)
}

#[test]
fn refusal_10() {
    // 128 calls of a chain of 127 rules weigh 16,384.
    let book = |extra: usize, action: u8| {
        let mut out = numbers(&[1, 2, 1, 128 + extra as u32]);
        out.extend([6, 1, 0].repeat(128));
        out.extend([action, 0].repeat(extra));
        out.push(127);
        out.extend([1, 0].repeat(127));
        out
    };
    assert_eq!(check(&book(0, 0)), Ok((2, 255)));
    // Log, empty and return count too.
    for action in 0..6 {
        assert_eq!(check(&book(1, action)), refused(10, 0));
    }
    let mut words = vec![0; 200_000];
    assert_eq!(unfold(&book(0, 0), &mut words), Ok((128 * 127 * 5 + 3, 128 * 127 + 1)));
    for seed in 0..40 {
        let mut random = Random::new(seed);
        fine(&weight_book(&mut random, 16_384).bytes());
        assert_eq!(check(&weight_book(&mut random, 16_385).bytes()), refused(10, 0));
    }
    // Only the entry is judged: another chain may weigh 16 to the power of 62.
    let mut all = Vec::new();
    for chain in 1..63 {
        all.extend(vec![(chain, chain + 1); 16]);
    }
    assert_eq!(check(&calls(64, &all)), Ok((64, 62 * 16)));
    assert_eq!(check(&heavy_with_call()), refused(10, 0));
    let seen: Vec<_> = (0..20).map(|seed| check(&heavy_chains(&mut Random::new(seed)).bytes())).collect();
    assert!(seen.contains(&refused(10, 0)) && seen.iter().any(|answer| answer.is_ok()));
}

/// What the plan gives for a port, beside the smallest book.
fn planned(plan: &[u8], port: u32) -> Result<State, Refusal> {
    start(&[1, 1, 0, 0], plan, port, &mut [0; 3]).map(|(_, _, state)| state)
}

#[test]
fn refusal_11() {
    let legal = [1, 2, 0, 2, 5, 6, 8, 9, 31, 1, 0, 0x80, 1];
    assert_eq!(planned(&legal, 0), Ok(State::running(0, &[(0, 4), (7, 7), (10, MOST)])));
    assert_eq!(planned(&legal, 31), Ok(State::running(31, &[(129, MOST)])));
    for length in 0..legal.len() {
        let place = if length == 12 { 11 } else { length };
        assert_eq!(planned(&legal[..length], 0), refused(11, place));
    }
    for edition in [0, 2] {
        assert_eq!(planned(&[edition, 0], 0), refused(11, 0));
    }
    let ports = |count: u32| {
        let mut plan = numbers(&[1, count]);
        (0..count).for_each(|port| plan.extend(numbers(&[port, 0])));
        plan
    };
    assert!(planned(&ports(32), 31).is_ok());
    assert_eq!(planned(&ports(33), 31), refused(11, 1));
    assert!(planned(&[1, 1, 31, 0], 31).is_ok());
    assert_eq!(planned(&[1, 1, 32, 0], 32), refused(11, 2));
    assert!(planned(&[1, 2, 4, 0, 5, 0], 5).is_ok());
    assert_eq!(planned(&[1, 2, 5, 0, 5, 0], 5), refused(11, 4));
    assert_eq!(planned(&[1, 2, 5, 0, 4, 0], 5), refused(11, 4));
    let ranges = |count: u32| {
        let mut plan = numbers(&[1, 1, 0, count]);
        (0..count).for_each(|at| plan.extend(numbers(&[1_000 + 2 * at, 1_000 + 2 * at])));
        plan
    };
    assert_eq!(planned(&ranges(64), 0).unwrap().count, 65);
    assert_eq!(planned(&ranges(65), 0), refused(11, 3));
    // Low equal to high, one above it; next low one, two above the high.
    assert!(planned(&[1, 1, 0, 1, 5, 5], 0).is_ok());
    assert_eq!(planned(&[1, 1, 0, 1, 5, 4], 0), refused(11, 5));
    assert!(planned(&[1, 1, 0, 2, 5, 6, 8, 8], 0).is_ok());
    assert_eq!(planned(&[1, 1, 0, 2, 5, 6, 7, 8], 0), refused(11, 6));
    assert_eq!(planned(&[1, 1, 0, 2, 5, 6, 7], 0), refused(11, 6));
    // Behind the highest address every low is bad, and nothing wraps.
    for low in [0, 1, MOST] {
        let mut plan = numbers(&[1, 1, 0, 2, 0, MOST]);
        plan.extend(numbers(&[low, MOST]));
        assert_eq!(planned(&plan, 0), refused(11, 10));
    }
    let whole = planned(&numbers(&[1, 1, 0, 1, 0, MOST]), 0).unwrap();
    assert_eq!(whole, State::running(0, &[]));
    // Extra bytes, and the length.
    assert_eq!(planned(&[1, 0, 0], 0), refused(11, 2));
    let mut long = vec![1, 0];
    long.resize(32_768, 0);
    assert_eq!(planned(&long, 0), refused(11, 2));
    long.push(0);
    assert_eq!(planned(&long, 0), refused(11, 0));
    assert_eq!(planned(&[0x81, 0], 0), refused(11, 0));
    assert_eq!(planned(&[1, 0x80, 0x80, 0x80, 0x80, 0x10], 0), refused(11, 1));
}

#[test]
fn refusal_12() {
    let plan = [1, 2, 3, 0, 31, 0];
    assert!(planned(&plan, 3).is_ok() && planned(&plan, 31).is_ok());
    for port in [0, 2, 4, 30, 32, 4_000, MOST] {
        assert_eq!(planned(&plan, port), refused(12, port as usize));
    }
}

#[test]
fn refusal_13() {
    let plan = [1, 1, 0, 0];
    let packet = Packet { source: 0, destination: 0, protocol: 0, destination_port: 0, input_port: 0 };
    let answers = [0; 32];
    let book = c1();
    let list = [1, 0, 1, 10, 0, 1, 1, 44, 1, 2, 0];
    for room in [0, 1, 10, 11, 12, 40] {
        let before: Vec<u32> = (0..room as u32).map(|at| at * 7 + 1_000).collect();
        let check_words = |after: &[u32], fits: bool| {
            if fits {
                assert_eq!(after[..11], list);
                assert_eq!(after[11..], before[11..]);
            } else {
                assert_eq!(after, before);
            }
        };
        let fits = room >= 11;
        let ask = |entry: &dyn Fn(&mut [u32]) -> Result<(), Refusal>| {
            let mut words = before.clone();
            let answer = entry(&mut words);
            assert_eq!(answer, if fits { Ok(()) } else { refused(13, 11) });
            check_words(&words, fits);
        };
        ask(&|words| unfold(&book, words).map(|counts| assert_eq!(counts, (11, 3))));
        ask(&|words| list_verdict(&book, &answers, &packet, words).map(|_| ()));
        ask(&|words| closure(&book, true, &packet, words).map(|_| ()));
        ask(&|words| closure(&book, false, &packet, words).map(|_| ()));
        ask(&|words| review(&book, &plan, 0, words).map(|_| ()));
        ask(&|words| start(&book, &plan, 0, words).map(|_| ()));
    }
    // The need can be millions: 500 returns, then 500 calls of a chain of 20 drops.
    let mut heavy = numbers(&[1, 2, 1, 1_000]);
    heavy.extend([5, 0].repeat(500));
    heavy.extend([6, 1, 0].repeat(500));
    heavy.push(20);
    heavy.extend([1, 0].repeat(20));
    assert_eq!(unfold(&heavy, &mut [0; 9]), refused(13, 500 * 20 * (3 + 500 + 2) + 3));
}

fn c1_list() -> Vec<u32> {
    vec![1, 0, 1, 10, 0, 1, 1, 44, 1, 2, 0]
}

#[test]
fn refusal_14_of_the_suspects() {
    let book = c1();
    let list = c1_list();
    let good = State::running(0, &[(0, 5), (7, 9), (MOST, MOST)]);
    assert!(step(&book, &list, &good).is_ok());
    let mut full = State::running(0, &spaced_suspects(0, 10, 640));
    assert!(step(&book, &list, &full).is_ok());
    full.count = 641;
    let change = |change: &dyn Fn(&mut State)| {
        let mut state = good.clone();
        change(&mut state);
        let running = step(&book, &list, &state);
        state.phase = Phase::Certified;
        // A finished state comes back unchanged, whatever is in it.
        assert_eq!(step(&book, &list, &state), Ok(state.clone()));
        state.phase = Phase::Refused { rule: 9, source: 9 };
        assert_eq!(step(&book, &list, &state), Ok(state.clone()));
        running
    };
    assert_eq!(step(&book, &list, &full), refused(14, 0));
    for count in [641, 4_294_967_296, usize::MAX] {
        assert_eq!(change(&|state| state.count = count), refused(14, 0));
    }
    // A count too low leaves something in an unused slot; too high, a range 0 to 0.
    assert_eq!(change(&|state| state.count = 2), refused(14, 0));
    assert_eq!(change(&|state| state.count = 4), refused(14, 0));
    // Touching, overlapping, reversed, falling.
    assert_eq!(change(&|state| state.low[1] = 6), refused(14, 0));
    assert_eq!(change(&|state| state.low[1] = 5), refused(14, 0));
    assert_eq!(change(&|state| state.low[1] = 0), refused(14, 0));
    assert!(change(&|state| state.low[1] = 8).is_ok());
    assert_eq!(change(&|state| state.low[1] = 10), refused(14, 0));
    assert_eq!(change(&|state| state.high[0] = MOST), refused(14, 0));
    assert_eq!(change(&|state| state.high[1] = MOST - 1), refused(14, 0));
    assert!(change(&|state| state.high[1] = MOST - 2).is_ok());
    // Garbage in unused slots.
    for slot in [3, 4, 639] {
        assert_eq!(change(&|state| state.low[slot] = 1), refused(14, 0));
        assert_eq!(change(&|state| state.high[slot] = 1), refused(14, 0));
    }
    // The port is not looked at.
    assert!(change(&|state| state.port = 4_000).is_ok());
}

#[test]
fn refusal_14_of_the_list() {
    let book = c1();
    let list = c1_list();
    let at = |list: &[u32], place: usize| {
        let mut state = State::running(0, &[(5, 5)]);
        state.place = place;
        step(&book, list, &state)
    };
    // At the end of the part, past it, and far past it.
    for place in [11, 12, 4_294_967_295, usize::MAX, usize::MAX - 2] {
        assert_eq!(at(&list, place), refused(14, place));
    }
    assert!(at(&list, 8).is_ok());
    assert_eq!(at(&[], 0), refused(14, 0));
    // The rule does not fit: head cut, conditions cut, a huge count.
    for length in 1..4 {
        assert_eq!(at(&list[..length], 0), refused(14, 0));
    }
    assert!(at(&list[..4], 0).is_ok());
    assert_eq!(at(&list[..10], 8), refused(14, 8));
    assert_eq!(at(&list, 9), refused(14, 9));
    let changed = |place: usize, word: u32| {
        let mut list = list.clone();
        list[place] = word;
        list
    };
    for count in [9, MOST, MOST - 2, MOST - 3, 1 << 31] {
        assert_eq!(at(&changed(2, count), 0), refused(14, 0));
    }
    // Another action.
    for action in [2, 6, MOST] {
        assert_eq!(at(&changed(0, action), 0), refused(14, 0));
        assert!(at(&changed(0, action), 4).is_ok());
    }
    // The rule number may be anything.
    assert!(at(&changed(1, MOST), 0).is_ok());
    let answer = at(&changed(5, MOST), 4).unwrap();
    assert_eq!(answer.phase, Phase::Refused { rule: MOST, source: 5 });
    // Offsets: only where a rule's own expression starts.
    for condition in 0..100 {
        let legal = [10, 11, 44, 45].contains(&condition);
        assert_eq!(at(&changed(3, condition), 0).is_ok(), legal, "{condition}");
    }
    for condition in [131_070, 131_072 + 10, MOST, MOST - 1, (1 << 31) + 10] {
        assert_eq!(at(&changed(3, condition), 0), refused(14, 0));
    }
    // The place need not be a rule's first word: 1 1 44 is cut, 0 1 1 44 is a rule.
    let mut state = State::running(0, &[(5, 5)]);
    state.place = 1;
    let shifted = [7, 0, 3, 0];
    assert_eq!(step(&book, &shifted, &state).unwrap().phase, Phase::Refused { rule: 3, source: 5 });
    // Expressions of every rule count: of returns, logs, calls and uncalled chains.
    let other = [1, 2, 1, 3, 5, 0, 3, 0, 6, 1, 0, 1, 4, 4, 1];
    fine(&other);
    for condition in 0..40 {
        let legal = [5, 7, 10, 13].contains(&(condition / 2));
        let list = [1, 0, 1, condition];
        let answer = step(&other, &list, &State::running(0, &[(5, 5)]));
        assert_eq!(answer.is_ok(), legal, "{condition}");
    }
}

#[test]
fn refusal_15() {
    // Drop the source 15, which lies inside the second of ranges 0-8, 10-18, ...
    let book = [1, 1, 1, 1, 1, 3, 15, 15];
    let list = [1, 0, 1, 10, 1, 1, 0];
    let state = |count| State::running(0, &spaced_suspects(0, 10, count));
    let mut cut = spaced_suspects(0, 10, 639);
    cut.splice(1..2, [(10, 14), (16, 18)]);
    let mut expected = State::running(0, &cut);
    expected.place = 4;
    assert_eq!(step(&book, &list, &state(639)), Ok(expected.clone()));
    assert_eq!(step(&book, &list, &state(640)), refused(15, 0));
    // At the last rule too, and in the middle of a part, with the state's place.
    assert_eq!(step(&book, &list[..4], &state(640)), refused(15, 0));
    expected.phase = Phase::Certified;
    assert_eq!(step(&book, &list[..4], &state(639)), Ok(expected));
    let mut behind = state(640);
    behind.place = 2;
    assert_eq!(step(&book, &[9, 9, 1, 0, 1, 10], &behind), refused(15, 2));
    // An edge of a range needs no more ranges; an accept never does.
    for source in [10, 18, 19] {
        let book = [1, 1, 1, 1, 1, 3, source, source];
        assert_eq!(step(&book, &list, &state(640)).unwrap().count, 640);
    }
    assert_eq!(
        step(&book, &[0, 0, 1, 10], &state(640)).unwrap().phase,
        Phase::Refused { rule: 0, source: 15 }
    );
    // 14 goes before.
    let mut stray = state(640);
    stray.count = 641;
    assert_eq!(step(&book, &list, &stray), refused(14, 0));
}

#[test]
fn refusal_16() {
    let packet = Packet { source: 0, destination: 0, protocol: 0, destination_port: 0, input_port: 0 };
    for length in [0, 1, 31, 32, 33, 64] {
        let answers = vec![0; length];
        let chain = chain_verdict(&c1(), &answers, &packet);
        let list = list_verdict(&c1(), &answers, &packet, &mut [0; 11]);
        let expected = if length == 32 { Ok(DROP) } else { refused(16, length) };
        assert_eq!((chain, list), (expected, expected));
        // 16 goes before 13; the book goes before both.
        let short = list_verdict(&c1(), &answers, &packet, &mut []);
        assert_eq!(short, if length == 32 { refused(13, 11) } else { refused(16, length) });
        assert_eq!(chain_verdict(&[], &answers, &packet), refused(2, 0));
        assert_eq!(list_verdict(&[2], &answers, &packet, &mut []), refused(4, 0));
    }
}

#[test]
fn refusal_17() {
    let book = [1, 2, 1, 2, 6, 1, 0, 3, 4, 0, 1, 5, 8, 2];
    assert_eq!(rule(&book, 0), Ok((4, 7)));
    assert_eq!(rule(&book, 1), Ok((7, 10)));
    assert_eq!(rule(&book, 2), Ok((11, 14)));
    assert_eq!(rule(&book, 3), refused(17, 3));
    assert_eq!(rule(&book, MOST), refused(17, MOST as usize));
    assert_eq!(rule(&[1, 1, 0, 0], 0), refused(17, 0));
    assert_eq!(rule(&book[..13], 9), refused(2, 13));
}

#[test]
fn order_of_refusals() {
    let (bad_plan, plan) = ([2], [1, 1, 0, 0]);
    for (book, expected) in [(&[][..], refused(2, 0)), (&c1()[..], refused(11, 0))] {
        assert_eq!(review(book, &bad_plan, 9, &mut []), expected);
        assert_eq!(start(book, &bad_plan, 9, &mut []).map(|_| Phase::Running), expected);
    }
    assert_eq!(review(&c1(), &plan, 9, &mut []), refused(12, 9));
    assert_eq!(review(&c1(), &plan, 0, &mut []), refused(13, 11));
    // A bad book goes before a stray state.
    let mut stray = State::running(0, &[(9, 1)]);
    stray.place = 70;
    assert_eq!(step(&[1, 1, 9], &[], &stray), refused(4, 2));
    assert_eq!(step(&c1(), &[], &stray), refused(14, 70));
}
