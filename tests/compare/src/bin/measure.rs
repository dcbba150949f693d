//! Measures the proved reviewer on a book of 1,024 rules and a plan of 8 ports: the check of the book, the whole review of
//! every port, and single calls of the review in slices; and one call over the costliest rule that we know to write.
//! Prints the least and the median of many runs, in microseconds.

use second::number::write_number;
use std::hint::black_box;
use std::time::Instant;

/// For each port, drops of what comes from outside 10.PORT.RULE.0/24 under an unread match or none, and an accept of all at the end.
fn book() -> Vec<u8> {
    let mut bytes = Vec::new();
    for number in [1, 1, 1, 1024] {
        write_number(&mut bytes, number);
    }
    for rule in 0..1023u32 {
        // drop, if all of two or three hold: entered by this port, not from this range, and for every second rule an unread match
        let doubtful = rule % 2 == 1;
        let numbers = [1, 2, if doubtful { 3 } else { 2 }, 4, rule % 8, 1];
        numbers.into_iter().for_each(|n| write_number(&mut bytes, n));
        if rule < 512 {
            let low = 0x0A00_0000 + ((rule % 8) << 16) + (rule << 8);
            [3, low, low + 255].into_iter().for_each(|n| write_number(&mut bytes, n));
        } else {
            [8, rule % 256].into_iter().for_each(|n| write_number(&mut bytes, n));
        }
        if doubtful {
            [8, 0].into_iter().for_each(|n| write_number(&mut bytes, n));
        }
    }
    [0, 8, 1].into_iter().for_each(|n| write_number(&mut bytes, n));
    bytes
}

/// Eight ports, each with 64 ranges of its own.
fn plan() -> Vec<u8> {
    let mut bytes = Vec::new();
    [1, 8].into_iter().for_each(|n| write_number(&mut bytes, n));
    for port in 0..8u32 {
        [port, 64].into_iter().for_each(|n| write_number(&mut bytes, n));
        for range in 0..64u32 {
            let low = 0x0A00_0000 + (port << 16) + ((range * 8 + port) << 8);
            [low, low + 255].into_iter().for_each(|n| write_number(&mut bytes, n));
        }
    }
    bytes
}

/// A kind 2 of 16 operands: kinds 2 again down to level 5 while there is room, below them what is left to write, and then kinds 0.
fn operands(bytes: &mut Vec<u8>, level: u32, left: &mut Vec<[u32; 4]>, room: usize) {
    [2, 16].into_iter().for_each(|n| write_number(bytes, n));
    for _ in 0..16 {
        if level < 5 && bytes.len() + 40 < room {
            operands(bytes, level + 1, left, room);
        } else if let Some(numbers) = left.pop() {
            numbers.into_iter().for_each(|n| write_number(bytes, n));
        } else {
            write_number(bytes, 0);
        }
    }
}

/// One rule that drops what comes from none of 512 small ranges, each known not to hold by kind 1 and kind 3, under as many kinds 0 as
/// there is room for: every horizon costs a walk over the whole book.
fn costly(room: usize) -> Vec<u8> {
    let mut bytes = Vec::new();
    [1, 1, 1, 1, 1].into_iter().for_each(|n| write_number(&mut bytes, n));
    let mut left = (0..512).map(|range| [1, 3, range * 4 + 1, range * 4 + 2]).collect();
    operands(&mut bytes, 1, &mut left, room);
    assert!(left.is_empty());
    bytes
}

fn told(name: &str, mut micros: Vec<f64>) {
    micros.sort_by(f64::total_cmp);
    println!("{name:40} least {:9.2}  median {:9.2}", micros[0], micros[micros.len() / 2]);
}

fn timed(runs: usize, mut f: impl FnMut()) -> Vec<f64> {
    (0..runs)
        .map(|_| {
            let before = Instant::now();
            f();
            before.elapsed().as_secs_f64() * 1e6
        })
        .collect()
}

/// One call over the costliest rule, in a book of about so many bytes.
fn costliest(room: usize, words: &mut [u32]) {
    let (book, plan, mut state) = (costly(room), [1, 1, 0, 0], [0; 1286]);
    println!("book of {} bytes, {:?} chains and rules", book.len(), tannenlaut::check(&book).expect("a legal book"));
    told("check", timed(51, || assert!(black_box(tannenlaut::check(&book)).is_ok())));
    let (count, _) = tannenlaut::start(&book, &plan, 0, words, &mut state).expect("a port of the plan");
    let (list, first) = (&words[..count as usize], state);
    told("one slice over the costliest rule", timed(11, || {
        state = first;
        assert!(black_box(tannenlaut::step(&book, list, &mut state)).is_ok());
    }));
    println!("{} ranges of suspects after it", state[5]);
}

fn main() {
    let (book, plan) = (book(), plan());
    let mut words = vec![0; 16_384];
    println!("book of {} bytes, {:?} chains and rules", book.len(), tannenlaut::check(&book).expect("a legal book"));
    told("check", timed(501, || assert!(black_box(tannenlaut::check(&book)).is_ok())));
    told("unfold", timed(501, || assert!(black_box(tannenlaut::unfold(&book, &mut words)).is_ok())));
    told("whole review of 8 ports", timed(101, || {
        for port in 0..8 {
            tannenlaut::review(&book, &plan, port, &mut words).expect("a port of the plan");
        }
    }));
    let mut state = [0; 1286];
    let (count, rules) = tannenlaut::start(&book, &plan, 3, &mut words, &mut state).expect("a port of the plan");
    let first = state;
    let mut slices = Vec::new();
    for _ in 0..20 {
        state = first;
        let list = &words[..count as usize];
        slices.extend(timed(rules as usize, || assert!(black_box(tannenlaut::step(&book, list, &mut state)).is_ok())));
    }
    let longest = slices.iter().copied().fold(0.0, f64::max);
    println!("{rules} slices, 20 times; phase at the end {}; longest {longest:.2}", state[2]);
    told("one slice (reads the book, as public)", slices);

    costliest(65_000, &mut words);
    costliest(4_096, &mut words);
}
