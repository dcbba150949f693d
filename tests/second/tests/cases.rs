//! Document 01's cases by their bytes, and further examples worked out by hand.

use second::number::{read_number, write_number};
use second::*;

fn hex(text: &str) -> Vec<u8> {
    text.split_whitespace().map(|byte| u8::from_str_radix(byte, 16).unwrap()).collect()
}

fn refused<T>(number: u32, place: usize) -> Result<T, Refusal> {
    Err(Refusal { number, place })
}

const LOW: &str = "80 80 A0 85 0C";
const HIGH: &str = "FF 81 A0 85 0C";

fn c1() -> Vec<u8> {
    hex("01 01 01 02 01 02 02 04 00 01 03 80 80 A0 85 0C FF 81 A0 85 0C 00 00")
}

fn c2() -> Vec<u8> {
    hex("01 02 00 01 80 80 A0 85 0C FF 81 A0 85 0C 01 00")
}

/// A rule of C1's kind: drop from port 0 unless in the range, with more operands.
fn guard(operands: usize, more: &str) -> String {
    format!("01 02 {operands:02X} 04 00 01 03 {LOW} {HIGH} {more}")
}

fn list_of(book: &[u8]) -> Vec<u32> {
    let mut words = vec![77; 1_000];
    let (used, _) = unfold(book, &mut words).unwrap();
    assert!(words[used..].iter().all(|&word| word == 77));
    words.truncate(used);
    words
}

/// The whole review, and the slices run to their end beside it.
fn reviewed(book: &[u8], plan: &[u8], port: u32) -> Phase {
    let mut words = vec![5; 1_000];
    let whole = review(book, plan, port, &mut words).unwrap();
    let mut others = vec![5; 1_000];
    let (used, rules, mut state) = start(book, plan, port, &mut others).unwrap();
    assert_eq!(words, others);
    let mut calls = 0;
    while state.phase == Phase::Running {
        state = step(book, &others[..used], &state).unwrap();
        calls += 1;
    }
    assert_eq!(state.phase, whole);
    assert!(calls <= rules);
    if whole == Phase::Certified {
        assert_eq!((calls, state.place), (rules, used));
    }
    assert_eq!(review_by_meaning(book, plan, port), Some(whole));
    whole
}

fn refused_at(rule: u32, source: u32) -> Phase {
    Phase::Refused { rule, source }
}

#[test]
fn numbers() {
    let good: [(&str, u32); 9] = [
        ("00", 0),
        ("7F", 127),
        ("80 01", 128),
        ("FF 7F", 16_383),
        ("80 80 01", 16_384),
        ("80 80 80 80 01", 1 << 28),
        ("FF FF FF FF 0F", u32::MAX),
        (LOW, 0xC0A8_0000),
        (HIGH, 0xC0A8_00FF),
    ];
    for (text, value) in good {
        let bytes = hex(text);
        assert_eq!(read_number(&bytes, 0), Ok((value, bytes.len())), "{text}");
        let mut written = Vec::new();
        write_number(&mut written, value);
        assert_eq!(written, bytes);
        // Behind other bytes and before others it reads the same.
        let mut inside = hex("80 80");
        inside.extend(&bytes);
        inside.push(0x80);
        assert_eq!(read_number(&inside, 2), Ok((value, 2 + bytes.len())));
    }
    let bad = [
        ("", 2),
        ("80", 2),
        ("80 80 80 80", 2),
        ("FF FF FF FF", 2),
        ("80 00", 3),
        ("82 00", 3),
        ("80 80 00", 3),
        ("80 80 80 80 00", 3),
        ("80 80 80 80 80", 3),
        ("80 80 80 80 80 01", 3),
        ("FF FF FF FF 10", 3),
        ("FF FF FF FF 8F", 3),
    ];
    for (text, number) in bad {
        assert_eq!(read_number(&hex(text), 0), refused(number, 0), "{text}");
        assert_eq!(read_number(&hex(&format!("07 {text}")), 1), refused(number, 1), "{text}");
    }
}

#[test]
fn every_shortest_writing_reads_back_and_no_longer_one_does() {
    let mut value: u64 = 0;
    while value <= u64::from(u32::MAX) {
        let mut bytes = Vec::new();
        write_number(&mut bytes, value as u32);
        assert_eq!(read_number(&bytes, 0), Ok((value as u32, bytes.len())));
        // The same value with a group of 0 put behind is never legal.
        let last = bytes.len() - 1;
        bytes[last] |= 0x80;
        assert_eq!(read_number(&bytes, 0), refused(if bytes.len() < 5 { 2 } else { 3 }, 0));
        bytes.push(0);
        assert_eq!(read_number(&bytes, 0), refused(3, 0));
        value += value / 50 + 1;
    }
}

#[test]
fn c1_and_c2() {
    assert_eq!(check(&c1()), Ok((1, 2)));
    assert_eq!(list_of(&c1()), [1, 0, 1, 10, 0, 1, 1, 44, 1, 2, 0]);
    assert_eq!(reviewed(&c1(), &c2(), 0), Phase::Certified);
    assert_eq!(reviewed(&c1(), &c2(), 1), refused_at(1, 0));
    let lines = "spoof report 1\nrules 2 list 3\nport 0 certified\nport 1 refused rule 1 source 0.0.0.0\n";
    assert_eq!(report(&c1(), &c2(), 16_384), lines.as_bytes());
    assert_eq!(report(&c1(), &c2(), 11), lines.as_bytes());
    assert_eq!(rule(&c1(), 0), Ok((4, 21)));
    assert_eq!(rule(&c1(), 1), Ok((21, 23)));
    assert_eq!(rule(&c1(), 2), refused(17, 2));
}

#[test]
fn c3_to_c6() {
    let c3 = hex(&format!("01 01 01 02 {} 00 00", guard(3, "08 00")));
    assert_eq!(reviewed(&c3, &c2(), 0), refused_at(1, 0));
    let c4 = hex(&format!("01 01 01 03 00 08 00 {} 00 00", guard(2, "")));
    assert_eq!(reviewed(&c4, &c2(), 0), refused_at(0, 0));
    let c5 = hex(&format!("01 01 01 03 01 08 00 {} 00 08 01", guard(2, "")));
    assert_eq!(reviewed(&c5, &c2(), 0), Phase::Certified);
    let c6 = hex(&format!("01 01 01 03 {} {} 00 00", guard(3, "08 00"), guard(3, "01 08 00")));
    assert_eq!(reviewed(&c6, &c2(), 0), refused_at(2, 0));
}

#[test]
fn c7_to_c9() {
    let idle = hex("01 04 01 00 01 06 02 00 01 06 03 00 01 06 02 00");
    let calling = hex("01 04 01 01 06 01 00 01 06 02 00 01 06 03 00 01 06 02 00");
    assert_eq!(check(&idle), refused(9, 2));
    assert_eq!(check(&calling), refused(9, 2));
    let c8 = hex("01 02 01 01 06 01 08 00 02 01 00 00 00");
    assert_eq!(reviewed(&c8, &hex("01 01 00 00"), 0), refused_at(2, 0));
    assert_eq!(check(&[]), refused(2, 0));
}

#[test]
fn four_more_cases() {
    let open = hex("01 01 00 00");
    assert_eq!(reviewed(&hex("01 01 01 01 00 01 08 00"), &open, 0), refused_at(0, 0));

    let returned = hex("01 02 01 02 05 03 00 09 06 01 00 01 00 00");
    assert_eq!(list_of(&returned), [0, 2, 3, 11, 20, 26, 1, 3, 0]);
    assert_eq!(reviewed(&returned, &hex("01 01 00 01 0A FF FF FF FF 0F"), 0), Phase::Certified);

    let inner = hex("01 02 01 02 06 01 00 00 00 01 05 03 00 09");
    assert_eq!(list_of(&inner), [0, 1, 1, 16, 1, 3, 0]);
    assert_eq!(reviewed(&inner, &open, 0), refused_at(1, 0));

    let policy = hex("01 01 00 02 05 00 01 00");
    assert_eq!(list_of(&policy), [1, 1, 2, 11, 14, 0, 2, 0]);
    assert_eq!(reviewed(&policy, &open, 0), refused_at(2, 0));
}

#[test]
fn reading_examples() {
    assert_eq!(check(&hex("82 00")), refused(3, 0));
    assert_eq!(check(&hex("02")), refused(4, 0));
    assert_eq!(check(&hex("01 01 00 00")), Ok((1, 0)));
    assert_eq!(list_of(&hex("01 01 00 00")), [0, 0, 0]);
    assert_eq!(list_of(&hex("01 01 01 02 05 00 00 00")), [0, 1, 2, 11, 14, 1, 2, 0]);
    // A rule out of a looping book is 9; so is a step with a finished state.
    let looping = hex("01 02 01 01 00 00 01 06 01 00");
    assert_eq!(rule(&looping, 0), refused(9, 1));
    let mut finished = State::running(0, &[]);
    finished.phase = Phase::Certified;
    finished.count = 9_999;
    assert_eq!(step(&looping, &[], &finished), refused(9, 1));
    assert_eq!(step(&c1(), &[], &finished), Ok(finished.clone()));
}

#[test]
fn plan_examples() {
    let asked = |plan: &str, port| start(&hex("01 01 00 00"), &hex(plan), port, &mut [0; 3]).map(|_| ());
    assert_eq!(asked("01 01 00 01 05 04", 0), refused(11, 5));
    assert_eq!(asked("01 01 00 02 05 06 07", 0), refused(11, 6));
    assert_eq!(asked("01 01 00 02 05 06 08 08", 0), Ok(()));
    assert_eq!(asked("01 00", 0), refused(12, 0));
    assert_eq!(asked("01 00", 4_000), refused(12, 4_000));
    // Each port's first range has none before it.
    assert_eq!(asked("01 02 00 01 05 06 01 01 00 09", 1), Ok(()));
    assert_eq!(asked("01 01 00 02 00 FF FF FF FF 0F 00 00", 0), refused(11, 10));
    assert_eq!(asked("01 01 20 00", 0), refused(11, 2));
    assert_eq!(asked("01 02 05 00 05 00", 5), refused(11, 4));
    assert_eq!(asked("01 01 00 00 00", 0), refused(11, 4));
    assert_eq!(asked("", 0), refused(11, 0));
    assert_eq!(asked("01 01 80 00", 0), refused(11, 2));
}

#[test]
fn slices_as_written() {
    let book = c1();
    let mut words = [9; 20];
    let (used, rules, first) = start(&book, &c2(), 0, &mut words).unwrap();
    assert_eq!((used, rules), (11, 3));
    assert_eq!(words[11..], [9; 9]);
    let outside = [(0, 0xC0A7_FFFF), (0xC0A8_0100, u32::MAX)];
    assert_eq!(first, State::running(0, &outside));
    let list = &words[..used];

    let second = step(&book, list, &first).unwrap();
    let mut expected = State::running(0, &[]);
    expected.place = 4;
    assert_eq!(second, expected);
    let third = step(&book, list, &second).unwrap();
    expected.place = 8;
    assert_eq!(third, expected);
    let last = step(&book, list, &third).unwrap();
    expected.place = 11;
    expected.phase = Phase::Certified;
    assert_eq!(last, expected);
    assert_eq!(step(&book, list, &last).unwrap(), last);

    // Cut behind the first rule the part certifies after one call.
    let cut = step(&book, &list[..4], &first).unwrap();
    assert_eq!((cut.phase, cut.place, cut.count), (Phase::Certified, 4, 0));
    // Three zero words more are an unconditional accept of rule 0.
    let mut more = list.to_vec();
    more.extend([0, 0, 0]);
    let mut state = State::running(0, &[(7, 9)]);
    state.place = 11;
    let answer = step(&book, &more, &state).unwrap();
    let mut refusing = state.clone();
    refusing.phase = refused_at(0, 7);
    assert_eq!(answer, refusing);
    // Any port is fine; no kind 4 is true then.
    let far = State::running(4_000, &outside);
    assert_eq!(step(&book, list, &far).unwrap().count, 2);
    // Count 1 over zeroed slots is the set of 0.0.0.0.
    let mut zero = State::running(1, &[]);
    zero.count = 1;
    zero.place = 4;
    assert_eq!(step(&book, list, &zero).unwrap().phase, refused_at(1, 0));
    // A drop of the policy at the top of the addresses.
    let mut top = State::running(0, &[(0, 5), (u32::MAX, u32::MAX)]);
    top.place = 8;
    let done = step(&book, list, &top).unwrap();
    assert_eq!((done.phase, done.count, done.low[0], done.high[1]), (Phase::Certified, 0, 0, 0));
}

#[test]
fn report_lines() {
    let text = |book: &[u8], plan: &[u8], room| String::from_utf8(report(book, plan, room)).unwrap();
    assert_eq!(text(&[], &[], 16_384), "spoof report 1\nrefused 2 place 0\n");
    assert_eq!(text(&c1(), &[], 0), "spoof report 1\nrefused 11 place 0\n");
    assert_eq!(text(&c1(), &c2(), 10), "spoof report 1\nrefused 13 place 11\n");
    // Without ports the room is still judged.
    assert_eq!(text(&c1(), &hex("01 00"), 10), "spoof report 1\nrefused 13 place 11\n");
    assert_eq!(text(&c1(), &hex("01 00"), 11), "spoof report 1\nrules 2 list 3\n");
    let book = hex("01 01 00 01 01 03 00 83 82 80 08");
    let plan = hex("01 02 03 00 1F 01 00 84 82 80 08");
    let lines = "spoof report 1\nrules 1 list 2\n\
                 port 3 refused rule 1 source 1.0.1.4\nport 31 refused rule 1 source 1.0.1.5\n";
    assert_eq!(text(&book, &plan, 9), lines);
}

#[test]
fn verdicts_by_hand() {
    let packet = Packet {
        source: 0xC0A8_0007,
        destination: 5,
        protocol: 17,
        destination_port: 70_000,
        input_port: 0,
    };
    let ask = |book: &[u8], answers: &[u8; 32], packet: &Packet| {
        let chain = chain_verdict(book, answers, packet).unwrap();
        let mut words = [0; 100];
        assert_eq!(list_verdict(book, answers, packet, &mut words), Ok(chain));
        chain
    };
    let none = [0; 32];
    assert_eq!(ask(&c1(), &none, &packet), ACCEPT);
    assert_eq!(ask(&c1(), &none, &Packet { source: 1, ..packet }), DROP);
    assert_eq!(ask(&c1(), &none, &Packet { source: 1, input_port: 32, ..packet }), ACCEPT);
    // Unread 10 is bit 2 of byte 1.
    let unread = hex("01 01 01 01 00 08 0A");
    let mut answers = none;
    answers[1] = 4;
    assert_eq!(ask(&unread, &answers, &packet), ACCEPT);
    let mut others = [255; 32];
    others[1] = 251;
    assert_eq!(ask(&unread, &others, &packet), DROP);
    let closed = |book: &[u8], upper| closure(book, upper, &packet, &mut [0; 100]).unwrap();
    assert_eq!((closed(&unread, true), closed(&unread, false)), (ACCEPT, DROP));
    let unread_drop = hex("01 01 00 01 01 01 08 0A");
    assert_eq!((closed(&unread_drop, true), closed(&unread_drop, false)), (ACCEPT, DROP));
    // For closures only kind 8 is unknown: protocol 17 is read off the packet.
    let protocol = hex("01 01 01 01 00 06 11");
    assert_eq!((closed(&protocol, true), closed(&protocol, false)), (ACCEPT, ACCEPT));
    // Reject denies, log and empty decide nothing, a return in the entry meets the policy.
    assert_eq!(ask(&hex("01 01 00 02 03 00 02 00"), &none, &packet), DROP);
    assert_eq!(ask(&hex("01 01 00 01 04 00"), &none, &packet), ACCEPT);
    assert_eq!(ask(&hex("01 01 01 02 05 00 00 00"), &none, &packet), DROP);
    // A return in a called chain goes on after the call.
    assert_eq!(ask(&hex("01 02 01 02 06 01 00 00 00 02 05 00 01 00"), &none, &packet), ACCEPT);
    // Ports and destinations: the range ends belong to it; a reversed range matches nothing.
    assert_eq!(ask(&hex("01 01 01 01 00 05 05 05"), &none, &packet), ACCEPT);
    assert_eq!(ask(&hex("01 01 01 01 00 05 06 04"), &none, &packet), DROP);
    assert_eq!(ask(&hex("01 01 01 01 00 01 05 06 04"), &none, &packet), ACCEPT);
    assert_eq!(ask(&hex("01 01 01 01 00 07 00 FF FF 03"), &none, &packet), DROP);
}
