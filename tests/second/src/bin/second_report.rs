//! Prints the report on book.bin and plan.bin of the folder it is run in.

use std::io::Write;

fn main() {
    // A missing or unreadable file is empty.
    let book = std::fs::read("book.bin").unwrap_or_default();
    let plan = std::fs::read("plan.bin").unwrap_or_default();
    let report = second::report(&book, &plan, second::report::ROOM);
    std::io::stdout().write_all(&report).expect("the report is written");
}
