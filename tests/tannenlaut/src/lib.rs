//! The proved reviewer for Rust: safe functions over the static library's exports.
//!
//! Nothing is kept between calls and nothing is allocated below this file. Each function here lends slices and arrays and
//! reads the six words of the answer; the declarations repeat include/tannenlaut.h, and nothing else checks them.

/// A refusal: its number, and its place.
#[derive(Clone, Copy, Debug, PartialEq, Eq)]
pub struct Refusal {
    pub number: u32,
    pub place: u32,
}

/// Source, destination, protocol, destination port number, input port; each of any value.
pub type Packet = [u32; 5];

/// Port, place, phase, rule, source, count, 640 lows, 640 highs.
pub type State = [u32; 1286];

pub const RUNNING: u32 = 0;
pub const CERTIFIED: u32 = 1;
pub const REFUSED: u32 = 2;

mod raw {
    extern "C" {
        pub fn tannenlaut_check(book: *const u8, n: usize, answer: *mut u32);
        pub fn tannenlaut_rule(book: *const u8, n: usize, rule: u32, answer: *mut u32);
        pub fn tannenlaut_unfold(book: *const u8, n: usize, words: *mut u32, m: usize, answer: *mut u32);
        pub fn tannenlaut_chain_verdict(
            book: *const u8, n: usize, answers: *const u8, a: usize, packet: *const u32, answer: *mut u32,
        );
        pub fn tannenlaut_list_verdict(
            book: *const u8, n: usize, answers: *const u8, a: usize, packet: *const u32, words: *mut u32, m: usize,
            answer: *mut u32,
        );
        pub fn tannenlaut_closure(
            book: *const u8, n: usize, upper: u32, packet: *const u32, words: *mut u32, m: usize, answer: *mut u32,
        );
        pub fn tannenlaut_review(
            book: *const u8, n: usize, plan: *const u8, p: usize, port: u32, words: *mut u32, m: usize, answer: *mut u32,
        );
        pub fn tannenlaut_start(
            book: *const u8, n: usize, plan: *const u8, p: usize, port: u32, words: *mut u32, m: usize, state: *mut u32,
            answer: *mut u32,
        );
        pub fn tannenlaut_step(
            book: *const u8, n: usize, list: *const u32, l: usize, state: *mut u32, answer: *mut u32,
        );
        pub fn tannenlaut_report(
            book: *const u8, n: usize, plan: *const u8, p: usize, words: *mut u32, m: usize, text: *mut u8, t: usize,
            answer: *mut u32,
        );
    }
}

/// The values of an answer, or its refusal.
fn told(answer: [u32; 6]) -> Result<[u32; 3], Refusal> {
    match answer[0] {
        0 => Ok([answer[2], answer[3], answer[4]]),
        number => Err(Refusal { number, place: answer[1] }),
    }
}

/// Words that no call leaves as they are, so that a call that does not fill its answer is seen.
const UNTOLD: [u32; 6] = [77; 6];

/// Chains and rules of a book.
pub fn check(book: &[u8]) -> Result<(u32, u32), Refusal> {
    let mut answer = UNTOLD;
    // Each pointer below comes with the length of its own slice, or points to an array of the length that the header names.
    unsafe { raw::tannenlaut_check(book.as_ptr(), book.len(), answer.as_mut_ptr()) };
    told(answer).map(|[chains, rules, _]| (chains, rules))
}

/// Where a rule starts and ends in the book.
pub fn rule(book: &[u8], number: u32) -> Result<(u32, u32), Refusal> {
    let mut answer = UNTOLD;
    unsafe { raw::tannenlaut_rule(book.as_ptr(), book.len(), number, answer.as_mut_ptr()) };
    told(answer).map(|[start, end, _]| (start, end))
}

/// Words and rules of the list, which the first words then hold.
pub fn unfold(book: &[u8], words: &mut [u32]) -> Result<(u32, u32), Refusal> {
    let mut answer = UNTOLD;
    unsafe { raw::tannenlaut_unfold(book.as_ptr(), book.len(), words.as_mut_ptr(), words.len(), answer.as_mut_ptr()) };
    told(answer).map(|[count, rules, _]| (count, rules))
}

/// 0 accept, 1 drop.
pub fn chain_verdict(book: &[u8], answers: &[u8], packet: &Packet) -> Result<u32, Refusal> {
    let mut answer = UNTOLD;
    unsafe {
        raw::tannenlaut_chain_verdict(
            book.as_ptr(), book.len(), answers.as_ptr(), answers.len(), packet.as_ptr(), answer.as_mut_ptr(),
        )
    };
    told(answer).map(|[verdict, ..]| verdict)
}

/// 0 accept, 1 drop.
pub fn list_verdict(book: &[u8], answers: &[u8], packet: &Packet, words: &mut [u32]) -> Result<u32, Refusal> {
    let mut answer = UNTOLD;
    unsafe {
        raw::tannenlaut_list_verdict(
            book.as_ptr(), book.len(), answers.as_ptr(), answers.len(), packet.as_ptr(), words.as_mut_ptr(), words.len(),
            answer.as_mut_ptr(),
        )
    };
    told(answer).map(|[verdict, ..]| verdict)
}

/// 0 accept, 1 drop.
pub fn closure(book: &[u8], upper: bool, packet: &Packet, words: &mut [u32]) -> Result<u32, Refusal> {
    let mut answer = UNTOLD;
    unsafe {
        raw::tannenlaut_closure(
            book.as_ptr(), book.len(), upper as u32, packet.as_ptr(), words.as_mut_ptr(), words.len(), answer.as_mut_ptr(),
        )
    };
    told(answer).map(|[verdict, ..]| verdict)
}

/// Phase, rule and source.
pub fn review(book: &[u8], plan: &[u8], port: u32, words: &mut [u32]) -> Result<[u32; 3], Refusal> {
    let mut answer = UNTOLD;
    unsafe {
        raw::tannenlaut_review(
            book.as_ptr(), book.len(), plan.as_ptr(), plan.len(), port, words.as_mut_ptr(), words.len(), answer.as_mut_ptr(),
        )
    };
    told(answer)
}

/// Words and rules of the list; the state then runs at word 0.
pub fn start(book: &[u8], plan: &[u8], port: u32, words: &mut [u32], state: &mut State) -> Result<(u32, u32), Refusal> {
    let mut answer = UNTOLD;
    unsafe {
        raw::tannenlaut_start(
            book.as_ptr(), book.len(), plan.as_ptr(), plan.len(), port, words.as_mut_ptr(), words.len(), state.as_mut_ptr(),
            answer.as_mut_ptr(),
        )
    };
    told(answer).map(|[count, rules, _]| (count, rules))
}

/// The phase after one call over one list rule.
pub fn step(book: &[u8], list: &[u32], state: &mut State) -> Result<u32, Refusal> {
    let mut answer = UNTOLD;
    unsafe {
        raw::tannenlaut_step(
            book.as_ptr(), book.len(), list.as_ptr(), list.len(), state.as_mut_ptr(), answer.as_mut_ptr(),
        )
    };
    told(answer).map(|[phase, ..]| phase)
}

/// The bytes of the report, which the first bytes of the text then are.
pub fn report(book: &[u8], plan: &[u8], words: &mut [u32], text: &mut [u8]) -> Result<u32, Refusal> {
    let mut answer = UNTOLD;
    unsafe {
        raw::tannenlaut_report(
            book.as_ptr(), book.len(), plan.as_ptr(), plan.len(), words.as_mut_ptr(), words.len(), text.as_mut_ptr(),
            text.len(), answer.as_mut_ptr(),
        )
    };
    told(answer).map(|[bytes, ..]| bytes)
}
