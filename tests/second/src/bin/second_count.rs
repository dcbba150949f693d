//! Prints how often each answer occurs in random cases: first seed, count of cases.

fn main() {
    let mut arguments = std::env::args().skip(1).map(|text| text.parse().expect("a number"));
    let first = arguments.next().unwrap_or(0);
    let cases = arguments.next().unwrap_or(10_000);
    let tally = second::tally::count(first, cases);
    for ((entry, name), count) in &tally.seen {
        println!("{entry:14} {name:18} {count}");
    }
    for number in 1..=17 {
        println!("refusal {number:2} in all {}", tally.total(&format!("refusal {number:2}")));
    }
}
