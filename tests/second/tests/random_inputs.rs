//! Random inputs: the ways to one answer compared with each other.

use second::book::read_book;
use second::meaning::review_by_meaning_within;
use second::number::read_number;
use second::plan::{ranges_of, read_plan};
use second::random::*;
use second::review::{known_table, left_by_drop};
use second::slices::step_in;
use second::unfold::{list_rules, need};
use second::*;
use std::collections::BTreeMap;

/// The lent words of a case, before and after one entry.
fn lend<T>(case: &Case, entry: impl Fn(&mut [u32]) -> T) -> (T, Vec<u32>) {
    let mut words = case.words.clone();
    let answer = entry(&mut words);
    (answer, words)
}

/// Runs the slices to their end beside the whole review; gives the calls taken.
fn run_slices(case: &Case) -> Option<Phase> {
    let Case { book, plan, port, .. } = case;
    let (whole, reviewed) = lend(case, |words| review(book, plan, *port, words));
    let (started, words) = lend(case, |words| start(book, plan, *port, words));
    assert_eq!(reviewed, words);
    let (used, rules, mut state) = match (started, whole) {
        (Ok(started), Ok(_)) => started,
        (Err(a), Err(b)) => {
            assert_eq!(a, b);
            assert_eq!(words, case.words);
            return None;
        }
        _ => panic!("start and review differ"),
    };
    let (counts, unfolded) = lend(case, |words| unfold(book, words));
    assert_eq!((counts, &unfolded), (Ok((used, rules)), &words));
    assert_eq!(words[used..], case.words[used..]);

    let read = read_book(book).unwrap();
    let list = &words[..used];
    let ports = read_plan(plan).unwrap();
    let table = known_table(&read, *port);
    let mut suspects = second::review::complement(ranges_of(&ports, *port).unwrap());
    let mut place = 0;
    let all = list_rules(list);
    assert_eq!(all.len(), rules);
    for (at, rule) in all.iter().enumerate() {
        // Reading the book at every step is slow for long lists only.
        let next = if rules < 50 { step(book, list, &state) } else { step_in(&read, list, &state) };
        let next = next.expect("14 and 15 never come from a start");
        if let Phase::Refused { rule: number, source } = next.phase {
            assert_eq!((number, rule.action), (rule.rule, ACCEPT));
            assert!(suspects.iter().any(|&(low, high)| low <= source && source <= high));
            // A refusing rule leaves suspects and place as they were.
            let mut undone = next.clone();
            undone.phase = Phase::Running;
            assert_eq!(undone, state);
            assert_eq!(Ok(next.phase), whole);
            return Some(next.phase);
        }
        place += 3 + rule.conditions.len();
        if rule.action == DROP {
            suspects = left_by_drop(&suspects, rule, &table);
        }
        let mut expected = State::running(*port, &suspects);
        expected.place = place;
        if at + 1 == rules {
            expected.phase = Phase::Certified;
        }
        assert_eq!(next, expected);
        state = next;
    }
    assert_eq!(whole, Ok(Phase::Certified));
    Some(Phase::Certified)
}

#[test]
fn slices_run_to_the_end_equal_the_whole_review() {
    let (mut certified, mut refused) = (0, 0);
    for seed in 0..20_000 {
        match run_slices(&case(seed)) {
            Some(Phase::Certified) => certified += 1,
            Some(_) => refused += 1,
            None => {}
        }
    }
    assert!(certified > 3_000 && refused > 3_000, "{certified} certified, {refused} refused");
}

#[test]
fn list_verdict_equals_chain_verdict_between_the_closures() {
    let mut seen: BTreeMap<(u32, u32, u32), u32> = BTreeMap::new();
    for seed in 100_000..112_000 {
        let case = case(seed);
        let mut random = Random::new(seed);
        let taste = taste(&mut random);
        for round in 0..4 {
            // The case's own packet and answers first, then its packet with others.
            let answers = if round == 0 { case.answers.clone() } else { answers(&mut random) };
            let packet = if round < 2 { case.packet } else { packet(&mut random, &taste) };
            let chain = chain_verdict(&case.book, &answers, &packet);
            let (list, after) = lend(&case, |words| list_verdict(&case.book, &answers, &packet, words));
            let (upper, above) = lend(&case, |words| closure(&case.book, true, &packet, words));
            let (lower, below) = lend(&case, |words| closure(&case.book, false, &packet, words));
            assert_eq!(above, below);
            match (chain, list, upper, lower) {
                (Ok(chain), Ok(list), Ok(upper), Ok(lower)) => {
                    assert_eq!(chain, list, "seed {seed}");
                    assert_eq!(after, above);
                    // As numbers: accept is 0, so upper is least and lower most.
                    assert!(upper <= chain && chain <= lower, "seed {seed}");
                    *seen.entry((upper, chain, lower)).or_default() += 1;
                }
                (Ok(_), Err(list), Err(upper), Err(lower)) => {
                    assert_eq!((list.number, upper, lower), (13, list, list));
                    assert_eq!((&after, &above), (&case.words, &case.words));
                }
                (Err(chain), Err(list), upper, _) => {
                    assert_eq!(chain, list);
                    assert_eq!(after, case.words);
                    assert!(chain.number == 16 || upper == Err(chain));
                }
                other => panic!("seed {seed}: {other:?}"),
            }
        }
    }
    // All four ways in which the three can stand to each other.
    for way in [(0, 0, 0), (0, 0, 1), (0, 1, 1), (1, 1, 1)] {
        assert!(seen[&way] > 200, "{seen:?}");
    }
}

#[test]
fn review_equals_its_meaning() {
    let (mut certified, mut at_zero, mut above, mut with_places) = (0, 0, 0, 0);
    for seed in 200_000..220_000 {
        // Many answers are tried out for a few books only.
        let most_work = if seed < 200_500 { 1 << 25 } else { 1 << 19 };
        let mut random = Random::new(seed);
        let mut taste = taste(&mut random);
        taste.unread = random.pick(&[0, 10, 25]);
        let ports = plan_ports(&mut random, &taste);
        let draft = match random.below(3) {
            0 => guarded_book(&mut random, &taste, &ports),
            _ => small_book(&mut random, &taste),
        };
        let (book, plan) = (draft.bytes(), plan_bytes(&ports));
        for port in ports.iter().take(3) {
            let meaning = review_by_meaning_within(&book, &plan, port.number, most_work);
            let Some(meaning) = meaning else { continue };
            let mut words = vec![0; need(&read_book(&book).unwrap()).0];
            let answer = review(&book, &plan, port.number, &mut words);
            assert_eq!(answer, Ok(meaning), "seed {seed}");
            let accepts = list_rules(&words).iter().any(|rule| rule.action == ACCEPT);
            match meaning {
                Phase::Refused { source: 0, .. } => at_zero += 1,
                Phase::Refused { .. } => above += 1,
                _ if accepts => certified += 1,
                _ => {}
            }
            if !read_book(&book).unwrap().rules().all(|rule| fully_known(&rule.expression)) {
                with_places += 1;
            }
        }
    }
    println!("{certified} certified, {at_zero} refused at 0, {above} above, {with_places} with unread");
    assert!(certified > 3_000 && at_zero > 3_000 && above > 1_000 && with_places > 2_000);
}

/// The port's promise against the chains themselves: nothing from outside gets in.
#[test]
fn certified_ports_let_nothing_in_and_refused_ones_do() {
    let (mut tried, mut found) = (0, 0);
    for seed in 300_000..312_000 {
        let mut case = case(seed);
        let Ok(book) = read_book(&case.book) else { continue };
        case.words = vec![0; need(&book).0.min(100_000)];
        let Ok(phase) = review(&case.book, &case.plan, case.port, &mut case.words) else { continue };
        let ports = read_plan(&case.plan).unwrap();
        let outside = second::review::complement(ranges_of(&ports, case.port).unwrap());
        let mut random = Random::new(seed);
        let taste = taste(&mut random);
        if let Phase::Refused { source, .. } = phase {
            // Without unread places the source named is let in, as everything is known.
            if book.rules().all(|rule| fully_known(&rule.expression)) {
                let packet = Packet { source, input_port: case.port, ..case.packet };
                assert_eq!(chain_verdict(&case.book, &[0; 32], &packet), Ok(ACCEPT), "seed {seed}");
                found += 1;
            }
            continue;
        }
        for _ in 0..6 {
            if outside.is_empty() {
                break;
            }
            let (low, high) = random.pick(&outside);
            let source = random.pick(&[low, high, low + (high - low) / 2]);
            let packet = Packet { source, input_port: case.port, ..packet(&mut random, &taste) };
            let answers: Vec<u8> = (0..32).map(|_| random.word() as u8).collect();
            assert_eq!(chain_verdict(&case.book, &answers, &packet), Ok(DROP), "seed {seed}");
            tried += 1;
        }
    }
    assert!(tried > 10_000 && found > 800, "{tried} tried, {found} found");
}

fn fully_known(expression: &second::book::Expression) -> bool {
    use second::book::Test;
    match &expression.test {
        Test::Not(part) => fully_known(part),
        Test::All(parts) => parts.iter().all(fully_known),
        Test::Always | Test::Source(..) | Test::EnteredBy(_) => true,
        _ => false,
    }
}

/// A book is read strictly from left to right: cut where it is refused, it lacks
/// just that number, and nothing behind that number matters.
#[test]
fn refusals_come_from_left_to_right() {
    let mut seen = [0; 11];
    for seed in 400_000..430_000 {
        let book = case(seed).book;
        let Err(Refusal { number, place }) = check(&book) else { continue };
        seen[number as usize] += 1;
        let cut = check(&book[..place.min(book.len())]);
        match number {
            2 | 3 | 4 | 5 | 7 => assert_eq!(cut, Err(Refusal { number: 2, place })),
            6 => assert_eq!(cut, Err(Refusal { number: 6, place })),
            8 => assert!(cut.map_or_else(|refusal| refusal.number > 8, |_| true)),
            _ => continue,
        }
        if [4, 5, 7].contains(&number) {
            let (_, behind) = read_number(&book, place).unwrap();
            let mut other = book[..behind].to_vec();
            other.extend([0x80, 0, 9, 9]);
            assert_eq!(check(&other), Err(Refusal { number, place }));
        }
    }
    assert!(seen[1..].iter().all(|&count| count > 50), "{seen:?}");
}

/// The rules' own bytes follow each other, with only chain counts between them,
/// and each stands as a rule in a book of its own.
#[test]
fn rules_by_number() {
    let mut rules = 0;
    for seed in 500_000..503_000 {
        let case = case(seed);
        let Ok((chains, total)) = check(&case.book) else { continue };
        let mut behind = 0;
        for number in (0..total as u32).take(60) {
            let (first, end) = rule(&case.book, number).unwrap();
            assert!(behind <= first && first < end);
            let mut alone = numbers(&[1, chains as u32, 1, 1]);
            alone.extend(&case.book[first..end]);
            alone.extend(vec![0; chains - 1]);
            assert_eq!(check(&alone), Ok((chains, 1)));
            assert_eq!(rule(&alone, 0), Ok((4, 4 + end - first)));
            // A chain count of 0 to 1,024 stands between rules of two chains.
            assert!(number == 0 || first - behind <= 2 * chains);
            behind = end;
            rules += 1;
        }
        let last = rule(&case.book, total as u32);
        assert_eq!(last, Err(Refusal { number: 17, place: total }));
    }
    assert!(rules > 10_000, "{rules}");
}

#[test]
fn the_report_says_what_the_review_says() {
    let (mut full, mut refused) = (0, 0);
    for seed in 600_000..604_000 {
        let case = case(seed);
        let mut expected = String::from("spoof report 1\n");
        let mut words = case.words.clone();
        // With no port asked the start still judges book and plan; 12 comes last.
        let judged = check(&case.book)
            .and_then(|_| read_plan(&case.plan))
            .and_then(|ports| Ok((ports, unfold(&case.book, &mut words)?)));
        match judged {
            Err(refusal) => {
                expected += &format!("refused {} place {}\n", refusal.number, refusal.place);
                refused += 1;
            }
            Ok((ports, (_, rules))) => {
                expected += &format!("rules {} list {}\n", check(&case.book).unwrap().1, rules);
                for port in ports {
                    expected += &match review(&case.book, &case.plan, port.number, &mut words).unwrap() {
                        Phase::Refused { rule, source } => {
                            let source = std::net::Ipv4Addr::from(source);
                            format!("port {} refused rule {rule} source {source}\n", port.number)
                        }
                        _ => format!("port {} certified\n", port.number),
                    };
                }
                full += 1;
            }
        }
        let report = report(&case.book, &case.plan, case.words.len());
        assert_eq!(String::from_utf8(report).unwrap(), expected);
    }
    assert!(full > 1_000 && refused > 500);
}

/// A step on any words and state: the outcomes that the document allows, no other.
#[test]
fn steps_on_hostile_states() {
    let mut seen: BTreeMap<&str, u32> = BTreeMap::new();
    for seed in 700_000..730_000 {
        let case = case(seed);
        let answer = step(&case.book, &case.list, &case.state);
        if let Err(refusal) = check(&case.book) {
            assert_eq!(answer, Err(refusal));
            continue;
        }
        let state = &case.state;
        let cause = stray(&case);
        if let Some(cause) = cause {
            assert_eq!(answer, Err(Refusal { number: 14, place: state.place }), "seed {seed}");
            *seen.entry(cause).or_default() += 1;
            continue;
        }
        let name = match answer {
            Ok(next) if state.phase != Phase::Running => {
                assert_eq!(&next, state);
                "finished"
            }
            Ok(next) => {
                // A set's one writing before and after, which is again a subset.
                let before = state.suspects().expect("14 else");
                let after = next.suspects().expect("the one writing");
                assert_eq!(second::review::intersection(&before, &after), after);
                assert_eq!(next.port, state.port);
                match next.phase {
                    Phase::Refused { .. } => {
                        assert_eq!((next.place, after), (state.place, before));
                        "refused"
                    }
                    Phase::Certified => {
                        assert_eq!(next.place, case.list.len());
                        "certified"
                    }
                    Phase::Running => {
                        assert!(state.place + 3 <= next.place && next.place < case.list.len());
                        "running"
                    }
                }
            }
            Err(Refusal { number: 15, place }) => {
                assert_eq!((place, case.list[place]), (state.place, DROP));
                assert!(state.suspects().is_some());
                "15"
            }
            other => panic!("seed {seed}: {other:?}"),
        };
        *seen.entry(name).or_default() += 1;
    }
    let names = ["finished", "refused", "certified", "running", "15"];
    let causes = ["count", "unused slots", "ranges", "place", "fit", "action", "offset"];
    for name in names.iter().chain(&causes) {
        assert!(seen[name] >= 40, "{seen:?}");
    }
    println!("{seen:?}");
}

/// Why a running state or its list part is stray, said once more in other words.
fn stray(case: &Case) -> Option<&'static str> {
    let State { place, phase, count, low, high, .. } = &case.state;
    if *phase != Phase::Running {
        return None;
    }
    if *count > 640 {
        return Some("count");
    }
    let empty = |slots: &[u32; 640]| slots[*count..].iter().all(|&slot| slot == 0);
    if !empty(low) || !empty(high) {
        return Some("unused slots");
    }
    // All ends in their order: each high at or above its low, each low two above.
    let ends: Vec<i64> = (0..2 * count).map(|at| i64::from([low, high][at % 2][at / 2])).collect();
    if (1..ends.len()).any(|at| ends[at] - ends[at - 1] < [2, 0][at % 2]) {
        return Some("ranges");
    }
    if *place >= case.list.len() {
        return Some("place");
    }
    let left = case.list.len() - place;
    if left < 3 || (left as u64) < 3 + u64::from(case.list[place + 2]) {
        return Some("fit");
    }
    if case.list[*place] > 1 {
        return Some("action");
    }
    let conditions = &case.list[place + 3..place + 3 + case.list[place + 2] as usize];
    let book = read_book(&case.book).unwrap();
    let starts: Vec<u32> = book.rules().map(|rule| rule.expression.offset as u32).collect();
    if conditions.iter().any(|condition| !starts.contains(&(condition >> 1))) {
        return Some("offset");
    }
    None
}

#[test]
fn generators_keep_their_word() {
    for seed in 0..300 {
        let mut random = Random::new(seed);
        let taste = taste(&mut random);
        let ports = plan_ports(&mut random, &taste);
        assert!(check(&small_book(&mut random, &taste).bytes()).is_ok());
        assert!(check(&guarded_book(&mut random, &taste, &ports).bytes()).is_ok());
        assert!(read_plan(&plan_bytes(&ports)).is_ok());
        let level_16 = deep_expression(&mut random, &taste, 16);
        let level_17 = deep_expression(&mut random, &taste, 17);
        assert!(check(&[&[1, 1, 1, 1, 0][..], &level_16].concat()).is_ok());
        let refusal = check(&[&[1, 1, 1, 1, 0][..], &level_17].concat()).unwrap_err();
        assert_eq!(refusal.number, 6);
        assert!(check(&book_of_sources(&mut random, &taste, 512).bytes()).is_ok());
        let refusal = check(&book_of_sources(&mut random, &taste, 513).bytes()).unwrap_err();
        assert_eq!(refusal.number, 7);
    }
    // One seed gives one case, another gives another.
    assert_eq!(case(5).book, case(5).book);
    assert_eq!(case(5).state, case(5).state);
    assert_ne!(case(5).book, case(6).book);
}

#[test]
fn every_refusal_and_answer_occurs_often() {
    let tally = second::tally::count(800_000, 20_000);
    for number in 1..=17 {
        let count = tally.total(&format!("refusal {number:2}"));
        assert!(count >= 150, "refusal {number}: {count}");
    }
    for entry in ["chain verdict", "list verdict", "upper closure", "lower closure"] {
        assert!(tally.of(entry, "accept") > 2_000 && tally.of(entry, "drop") > 2_000);
    }
    for name in ["certified", "refused at 0", "refused above 0", "refused by policy"] {
        assert!(tally.of("review", name) > 300, "{name}: {}", tally.of("review", name));
    }
    for name in ["running", "certified", "refused", "certified before", "refused before"] {
        assert!(tally.of("step", name) > 300, "{name}: {}", tally.of("step", name));
    }
}
