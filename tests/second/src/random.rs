//! Random inputs from a fixed seed: books, plans, lists, states, answers, packets.
//! Most are legal and interesting to review; many stand at a limit or one above;
//! some are damaged.

use crate::book::read_book;
use crate::number::write_number;
use crate::slices::{step_in, State, MAX_RANGES};
use crate::unfold::{need, unfold_book};
use crate::{Packet, Phase};

/// A xorshift generator; one seed gives one sequence for ever.
pub struct Random(u64);

impl Random {
    pub fn new(seed: u64) -> Random {
        // Neighbouring seeds are spread, and 0 is avoided, where xorshift would stay.
        let mut x = seed.wrapping_add(0x9E37_79B9_7F4A_7C15);
        x = (x ^ (x >> 30)).wrapping_mul(0xBF58_476D_1CE4_E5B9);
        x = (x ^ (x >> 27)).wrapping_mul(0x94D0_49BB_1331_11EB);
        Random((x ^ (x >> 31)) | 1)
    }

    pub fn next(&mut self) -> u64 {
        self.0 ^= self.0 << 13;
        self.0 ^= self.0 >> 7;
        self.0 ^= self.0 << 17;
        self.0.wrapping_mul(0x2545_F491_4F6C_DD1D)
    }

    /// A number below `end`, which is above 0.
    pub fn below(&mut self, end: usize) -> usize {
        ((self.next() >> 16) % end as u64) as usize
    }

    /// A number from `least` to `most`, both included.
    pub fn between(&mut self, least: usize, most: usize) -> usize {
        least + self.below(most - least + 1)
    }

    pub fn chance(&mut self, percent: usize) -> bool {
        self.below(100) < percent
    }

    pub fn pick<T: Clone>(&mut self, from: &[T]) -> T {
        from[self.below(from.len())].clone()
    }

    pub fn word(&mut self) -> u32 {
        (self.next() >> 32) as u32
    }
}

// ---------------------------------------------------------------- drafts

/// A book before it is written. Its numbers may break any limit.
#[derive(Clone, Debug)]
pub struct Draft {
    pub policy: u32,
    pub chains: Vec<Vec<DraftRule>>,
}

#[derive(Clone, Debug)]
pub struct DraftRule {
    pub action: u32,
    /// Written only for a call.
    pub target: u32,
    pub expression: Vec<u8>,
}

pub const CALL: u32 = 6;

impl Draft {
    pub fn bytes(&self) -> Vec<u8> {
        let mut out = numbers(&[1, self.chains.len() as u32, self.policy]);
        for chain in &self.chains {
            write_number(&mut out, chain.len() as u32);
            for rule in chain {
                write_number(&mut out, rule.action);
                if rule.action == CALL {
                    write_number(&mut out, rule.target);
                }
                out.extend(&rule.expression);
            }
        }
        out
    }
}

pub fn numbers(values: &[u32]) -> Vec<u8> {
    let mut out = Vec::new();
    for &value in values {
        write_number(&mut out, value);
    }
    out
}

fn plain(action: u32, expression: &[u8]) -> DraftRule {
    DraftRule { action, target: 0, expression: expression.to_vec() }
}

fn call(target: usize, expression: &[u8]) -> DraftRule {
    DraftRule { action: CALL, target: target as u32, expression: expression.to_vec() }
}

// ---------------------------------------------------------------- expressions

/// What the expressions of one book are made of.
#[derive(Clone, Debug)]
pub struct Taste {
    /// Sources near which ranges start and end.
    pub edges: Vec<u32>,
    pub ports: Vec<u32>,
    /// How many in a hundred leaves are of an unknown kind.
    pub unread: usize,
    pub levels: u32,
}

const CENTRES: [u32; 9] =
    [0, 10, 255, 256, 3_232_235_520, 3_232_235_775, 1 << 31, u32::MAX - 5, u32::MAX];

pub fn taste(random: &mut Random) -> Taste {
    let mut edges = Vec::new();
    for _ in 0..random.between(1, 3) {
        let centre = if random.chance(60) { random.pick(&CENTRES) } else { random.word() };
        for _ in 0..random.between(1, 4) {
            edges.push(centre.saturating_add(random.below(12) as u32));
            edges.push(centre.saturating_sub(random.below(12) as u32));
        }
    }
    Taste {
        edges,
        ports: (0..random.between(1, 2)).map(|_| random.pick(&[0, 0, 1, 2, 31])).collect(),
        unread: random.pick(&[0, 0, 5, 15, 40]),
        levels: random.pick(&[1, 2, 2, 3, 4]),
    }
}

fn edge(random: &mut Random, taste: &Taste) -> u32 {
    let near = random.pick(&taste.edges);
    match random.below(6) {
        0 => near.saturating_add(1),
        1 => near.saturating_sub(1),
        _ => near,
    }
}

/// A range, now and then with low above high.
fn range(random: &mut Random, taste: &Taste) -> (u32, u32) {
    let (a, b) = (edge(random, taste), edge(random, taste));
    match random.below(12) {
        0 => (a, b),
        1 => (0, b),
        2 => (a, u32::MAX),
        _ => (a.min(b), a.max(b)),
    }
}

fn leaf(random: &mut Random, taste: &Taste) -> Vec<u8> {
    if random.chance(taste.unread) {
        return unknown_leaf(random, taste);
    }
    match random.below(10) {
        0 => numbers(&[0]),
        1 | 2 => numbers(&[4, random.pick(&taste.ports)]),
        3 => numbers(&[4, random.below(32) as u32]),
        _ => {
            let (low, high) = range(random, taste);
            numbers(&[3, low, high])
        }
    }
}

fn unknown_leaf(random: &mut Random, taste: &Taste) -> Vec<u8> {
    match random.below(6) {
        0 => {
            let (low, high) = range(random, taste);
            numbers(&[5, low, high])
        }
        1 => numbers(&[6, random.pick(&[0, 1, 6, 17, 255])]),
        2 => {
            let (low, high) = (random.pick(&PORT_NUMBERS), random.pick(&PORT_NUMBERS));
            numbers(&[7, low, high])
        }
        _ => numbers(&[8, random.pick(&[0, 0, 1, 1, 2, 7, 8, 255])]),
    }
}

const PORT_NUMBERS: [u32; 8] = [0, 1, 22, 80, 443, 1_023, 65_534, 65_535];

/// An expression of at most so many levels; `leaves` keeps it from growing wild.
pub fn expression(random: &mut Random, taste: &Taste, levels: u32, leaves: &mut usize) -> Vec<u8> {
    if levels <= 1 || *leaves == 0 || random.chance(45) {
        *leaves = leaves.saturating_sub(1);
        return leaf(random, taste);
    }
    if random.chance(45) {
        let mut out = numbers(&[1]);
        out.extend(expression(random, taste, levels - 1, leaves));
        return out;
    }
    let count = if random.chance(95) { random.between(2, 3) } else { random.between(2, 16) };
    let mut out = numbers(&[2, count as u32]);
    for _ in 0..count {
        out.extend(expression(random, taste, levels - 1, leaves));
    }
    out
}

fn some_expression(random: &mut Random, taste: &Taste) -> Vec<u8> {
    let mut leaves = 6;
    let levels = taste.levels;
    if random.chance(2) {
        let deep = random.between(14, 16);
        return deep_expression(random, taste, deep);
    }
    expression(random, taste, levels, &mut leaves)
}

/// An expression whose deepest operand is at exactly this level.
pub fn deep_expression(random: &mut Random, taste: &Taste, level: usize) -> Vec<u8> {
    if level == 1 {
        return leaf(random, taste);
    }
    if random.chance(60) {
        let mut out = numbers(&[1]);
        out.extend(deep_expression(random, taste, level - 1));
        return out;
    }
    let count = random.pick(&[2, 2, 2, 3, 16]);
    let deep_at = random.below(count);
    let mut out = numbers(&[2, count as u32]);
    for at in 0..count {
        if at == deep_at {
            out.extend(deep_expression(random, taste, level - 1));
        } else {
            out.extend(unless_source(random, taste));
        }
    }
    out
}

/// A leaf that does not use up the 512 expressions of kind 3.
fn unless_source(random: &mut Random, taste: &Taste) -> Vec<u8> {
    if random.chance(30) {
        unknown_leaf(random, taste)
    } else {
        numbers(&[0])
    }
}

// ---------------------------------------------------------------- legal books

fn some_plain_action(random: &mut Random) -> u32 {
    random.pick(&[0, 0, 1, 1, 1, 2, 3, 4, 5, 5])
}

/// A few chains that call only later ones, so without loops.
pub fn small_book(random: &mut Random, taste: &Taste) -> Draft {
    let chains = random.pick(&[1, 1, 2, 2, 3, 4, 6]);
    let mut draft = Draft { policy: random.below(2) as u32, chains: Vec::new() };
    for chain in 0..chains {
        let mut rules = Vec::new();
        for _ in 0..random.below(5) {
            let expression = some_expression(random, taste);
            if chain + 1 < chains && random.chance(45) {
                rules.push(call(random.between(chain + 1, chains - 1), &expression));
            } else {
                rules.push(plain(some_plain_action(random), &expression));
            }
        }
        draft.chains.push(rules);
    }
    if random.chance(40) {
        shuffle_names(random, &mut draft);
    }
    draft
}

/// Gives the chains other names, the entry aside; calls follow.
fn shuffle_names(random: &mut Random, draft: &mut Draft) {
    let count = draft.chains.len();
    for _ in 0..count {
        if count < 3 {
            return;
        }
        let (a, b) = (random.between(1, count - 1), random.between(1, count - 1));
        draft.chains.swap(a, b);
        for rule in draft.chains.iter_mut().flatten() {
            if rule.target == a as u32 {
                rule.target = b as u32;
            } else if rule.target == b as u32 {
                rule.target = a as u32;
            }
        }
    }
}

/// A book that guards the plan's ports, well or nearly: this is where reviews certify.
pub fn guarded_book(random: &mut Random, taste: &Taste, ports: &[DraftPort]) -> Draft {
    let mut draft = Draft { policy: random.below(4).min(1) as u32, chains: vec![Vec::new()] };
    let mut entry = Vec::new();
    for port in ports.iter().take(4) {
        let mut ranges = port.ranges.clone();
        if random.chance(25) {
            spoil_ranges(random, &mut ranges);
        }
        let unread = random.chance(12);
        match random.below(3) {
            0 if ranges.len() < 14 => entry.push(guard_in_one(random, port.number, &ranges, unread)),
            1 => entry.extend(guard_by_gaps(port.number, &ranges)),
            _ => entry.push(guard_by_chain(random, &mut draft, port.number, &ranges, unread)),
        }
    }
    for _ in 0..random.below(4) {
        let at = if random.chance(70) { entry.len() } else { random.below(entry.len() + 1) };
        let action = random.pick(&[0, 0, 0, 1, 3, 4, 5]);
        entry.insert(at, plain(action, &some_expression(random, taste)));
    }
    draft.chains[0] = entry;
    draft
}

fn spoil_ranges(random: &mut Random, ranges: &mut Vec<(u32, u32)>) {
    if ranges.is_empty() {
        return;
    }
    let at = random.below(ranges.len());
    match random.below(5) {
        0 => ranges[at].0 = ranges[at].0.saturating_sub(1),
        1 => ranges[at].1 = ranges[at].1.saturating_add(1),
        2 => ranges[at].0 = ranges[at].0.saturating_add(1),
        3 => ranges[at].1 = ranges[at].1.saturating_sub(1),
        _ => {
            ranges.remove(at);
        }
    }
}

/// Drop what enters by the port from none of the ranges, in one conjunction.
fn guard_in_one(random: &mut Random, port: u32, ranges: &[(u32, u32)], unread: bool) -> DraftRule {
    let mut parts = vec![numbers(&[4, port])];
    for &(low, high) in ranges {
        parts.push(numbers(&[1, 3, low, high]));
    }
    if unread || parts.len() == 1 {
        parts.push(if unread { numbers(&[8, random.below(3) as u32]) } else { numbers(&[0]) });
    }
    let mut expression = numbers(&[2, parts.len() as u32]);
    expression.extend(parts.concat());
    plain(random.pick(&[1, 1, 2]), &expression)
}

/// Drop each gap between the ranges by a rule of its own.
fn guard_by_gaps(port: u32, ranges: &[(u32, u32)]) -> Vec<DraftRule> {
    let mut rules = Vec::new();
    for (low, high) in crate::review::complement(ranges) {
        rules.push(plain(1, &numbers(&[2, 2, 4, port, 3, low, high])));
    }
    rules
}

/// A chain that returns for each range and then drops.
fn guard_by_chain(
    random: &mut Random,
    draft: &mut Draft,
    port: u32,
    ranges: &[(u32, u32)],
    unread: bool,
) -> DraftRule {
    let mut rules = Vec::new();
    for &(low, high) in ranges {
        rules.push(plain(5, &numbers(&[3, low, high])));
    }
    rules.push(plain(1, &if unread { numbers(&[6, 17]) } else { numbers(&[0]) }));
    if random.chance(30) {
        rules.push(plain(0, &numbers(&[0])));
    }
    draft.chains.push(rules);
    let mut last = draft.chains.len() - 1;
    // Sometimes the chain is called out of further chains, with returns in them.
    for _ in 0..random.below(3) {
        let mut outer = Vec::new();
        if random.chance(40) {
            outer.push(plain(5, &numbers(&[4, (port + 1) % 32])));
        }
        outer.push(call(last, &numbers(&[0])));
        if random.chance(30) {
            outer.push(plain(0, &numbers(&[4, (port + 1) % 32])));
        }
        draft.chains.push(outer);
        last += 1;
    }
    call(last, &if random.chance(85) { numbers(&[4, port]) } else { numbers(&[8, 3]) })
}

/// Chain within chain, down to 63, with returns on the way.
pub fn nested_book(random: &mut Random, taste: &Taste) -> Draft {
    let depth = random.pick(&[3, 5, 8, 12, 30, 63]);
    let mut draft = Draft { policy: random.below(2) as u32, chains: Vec::new() };
    for chain in 0..=depth {
        let mut rules = Vec::new();
        if random.chance(60) {
            rules.push(plain(some_plain_action(random), &leaf(random, taste)));
        }
        if chain < depth {
            rules.push(call(chain + 1, &leaf(random, taste)));
            if chain < 4 && random.chance(30) {
                rules.push(call(random.between(chain + 1, depth), &leaf(random, taste)));
            }
        }
        if random.chance(60) {
            rules.push(plain(some_plain_action(random), &leaf(random, taste)));
        }
        draft.chains.push(rules);
    }
    draft
}

/// Up to 64 chains and 1,024 rules; its weight may be above the limit.
pub fn large_book(random: &mut Random, taste: &Taste) -> Draft {
    let chains = random.between(20, 64);
    let mut draft = Draft { policy: random.below(2) as u32, chains: vec![Vec::new(); chains] };
    for _ in 0..random.between(300, 1_024) {
        let chain = random.below(chains);
        let mut leaves = 4;
        let expression = if random.chance(35) {
            leaf(random, taste)
        } else if random.chance(3) {
            deep_expression(random, taste, 16)
        } else if random.chance(50) {
            unless_source(random, taste)
        } else {
            expression(random, taste, 2, &mut leaves)
        };
        let rule = if chain + 1 < chains && random.chance(12) {
            call(random.between(chain + 1, chains - 1), &expression)
        } else {
            plain(random.pick(&[0, 1, 1, 2, 3, 4, 5, 5]), &expression)
        };
        draft.chains[chain].push(rule);
    }
    draft
}

/// A book whose entry has exactly this weight, made of calls and plain rules.
pub fn weight_book(random: &mut Random, weight: usize) -> Draft {
    let mut draft = Draft { policy: random.below(2) as u32, chains: vec![Vec::new()] };
    // The weights of the chains behind the entry, each made of the ones before it.
    let mut weights: Vec<usize> = vec![random.between(20, 100)];
    let actions: &[u32] = if random.chance(50) { &[3, 4] } else { &[0, 1, 2, 3, 4] };
    let first = (0..weights[0]).map(|_| plain(random.pick(actions), &[0])).collect();
    draft.chains.push(first);
    while *weights.last().unwrap() < weight / 20 {
        let last = draft.chains.len() - 1;
        let calls = random.between(2, 5);
        let extra = random.below(4);
        let mut rules: Vec<DraftRule> = (0..calls).map(|_| call(last, &[0])).collect();
        rules.extend((0..extra).map(|_| plain(random.pick(actions), &numbers(&[4, 1]))));
        weights.push(calls * (weights[last - 1] + 1) + extra);
        draft.chains.push(rules);
    }
    let mut left = weight;
    let mut entry = Vec::new();
    for chain in (0..weights.len()).rev() {
        while left >= weights[chain] + 1 {
            entry.push(call(chain + 1, &[0]));
            left -= weights[chain] + 1;
        }
    }
    entry.extend((0..left).map(|_| plain(random.pick(&[3, 4, 0, 1]), &numbers(&[4, 2]))));
    draft.chains[0] = entry;
    draft
}

/// Chains that are far too heavy, but for the entry.
pub fn heavy_chains(random: &mut Random) -> Draft {
    let chains = random.between(10, 63);
    let mut draft = Draft { policy: 1, chains: vec![vec![plain(0, &[0])]] };
    for chain in 1..chains {
        draft.chains.push((0..16).map(|_| call(chain + 1, &[0])).collect());
    }
    draft.chains.push(Vec::new());
    if random.chance(50) {
        draft.chains[0].push(call(1, &numbers(&[3, 1, 0])));
    }
    draft
}

/// Calls to and fro, so loops of every kind: of one chain, of many, behind a
/// lead-in, in chains that nothing calls.
pub fn looping_book(random: &mut Random, taste: &Taste) -> Draft {
    let chains = random.pick(&[2, 3, 4, 5, 8, 64]);
    let mut draft = Draft { policy: random.below(2) as u32, chains: vec![Vec::new(); chains] };
    for chain in 1..chains {
        if random.chance(70) {
            let target = if random.chance(80) { (chain + 1).min(chains - 1) } else { random.between(1, chains - 1) };
            let expression = leaf(random, taste);
            // The last chain would call itself; that is wanted only now and then.
            if target != chain || random.chance(30) {
                draft.chains[chain].push(call(target, &expression));
            }
        }
        if random.chance(30) {
            draft.chains[chain].insert(0, plain(0, &[0]));
        }
    }
    if random.chance(60) {
        let back = random.between(1, chains - 1);
        let to = random.between(1, back);
        draft.chains[back].push(call(to, &numbers(&[3, 1, 0])));
    }
    if random.chance(50) {
        let target = random.between(1, chains - 1);
        draft.chains[0].push(call(target, &[0]));
    }
    draft
}

// ---------------------------------------------------------------- books at limits

/// A book of exactly so many bytes (some thousand at least).
pub fn book_of_bytes(random: &mut Random, length: usize) -> Vec<u8> {
    let rules = 500;
    let mut sizes_left = length - 5 - 2 * rules;
    let mut out = numbers(&[1, 1, random.below(2) as u32, rules as u32]);
    for _ in 0..rules {
        out.push(random.below(6) as u8);
        // One big conjunction is 177 bytes longer than a kind 0; nots fill up the rest.
        if sizes_left >= 177 {
            out.extend([2, 16]);
            for _ in 0..16 {
                out.extend(numbers(&[5, u32::MAX - random.below(9) as u32, u32::MAX]));
            }
            sizes_left -= 177;
        } else {
            let nots = sizes_left.min(15);
            out.extend(vec![1; nots]);
            out.push(0);
            sizes_left -= nots;
        }
    }
    out
}

/// A book with exactly so many expressions of kind 3, reversed ones among them.
pub fn book_of_sources(random: &mut Random, taste: &Taste, count: usize) -> Draft {
    let mut draft = Draft { policy: 1, chains: vec![Vec::new(), Vec::new()] };
    let mut left = count;
    let spread = random.chance(50);
    let mut at = 0u32;
    while left > 0 {
        let parts = random.between(1, 16).min(left);
        let mut expression = if parts > 1 { numbers(&[2, parts as u32]) } else { Vec::new() };
        for _ in 0..parts {
            let (low, high) = if spread {
                at = at.wrapping_add(1_000);
                (at, at.wrapping_add(500))
            } else {
                range(random, taste)
            };
            if parts > 1 && spread {
                expression.push(1);
            }
            expression.extend(numbers(&[3, low, high]));
        }
        left -= parts;
        let chain = random.below(2);
        draft.chains[chain].push(plain(random.pick(&[0, 1, 1, 1, 5]), &expression));
    }
    draft.chains[0].push(call(1, &[0]));
    draft
}

/// A book in which one number stands at its limit, or one above, or far above.
pub fn limit_book(random: &mut Random, taste: &Taste) -> Vec<u8> {
    let most = u32::MAX;
    let action = random.below(6) as u32;
    let one_rule = |expression: Vec<u8>| {
        let mut out = numbers(&[1, 1, 1, 1, action]);
        out.extend(expression);
        out
    };
    match random.below(18) {
        0 => numbers(&[random.pick(&[0, 1, 2, 127, 128, most]), 1, 0, 0]),
        1 => {
            let chains = random.pick(&[0, 1, 2, 63, 64, 65, 128, most]);
            let mut out = numbers(&[1, chains, 1]);
            out.extend(vec![0; chains.min(66) as usize]);
            out
        }
        2 => numbers(&[1, 1, random.pick(&[0, 1, 2, 128, most]), 0]),
        3 => rule_counts(random),
        4 => {
            let action = random.pick(&[4, 5, 6, 7, 8, 128, most]);
            numbers(&[1, 2, 1, 1, action, 1, 0, 0])
        }
        5 => {
            let chains = random.between(1, 64) as u32;
            let target = random.pick(&[0, 1, chains - 1, chains, chains + 1, 64, most]);
            let mut out = numbers(&[1, chains, 1, 1, 6, target, 0]);
            out.extend(vec![0; chains as usize - 1]);
            out
        }
        6 => one_rule(numbers(&[random.pick(&[0, 8, 9, 10, 128, most]), 0])),
        7 | 8 => {
            let count = random.pick(&[0, 1, 2, 16, 17, 18, 128, most]);
            let mut expression = numbers(&[2, count]);
            for _ in 0..count.min(20) {
                expression.extend(leaf(random, taste));
            }
            one_rule(expression)
        }
        9 => one_rule(numbers(&[4, random.pick(&[0, 31, 32, 128, most])])),
        10 => one_rule(numbers(&[6, random.pick(&[0, 255, 256, most])])),
        11 => {
            let values = [0, 1, 65_535, 65_536, most];
            one_rule(numbers(&[7, random.pick(&values), random.pick(&values)]))
        }
        12 => one_rule(numbers(&[8, random.pick(&[0, 255, 256, most])])),
        13..=15 => {
            let level = random.pick(&[15, 16, 17, 17, 18]);
            let mut out = one_rule(deep_expression(random, taste, level));
            if random.chance(40) {
                out.truncate(out.len() - random.below(4));
            }
            out
        }
        16 => one_rule(vec![[1; 15].as_slice(), &numbers(&[2, random.pick(&[1, 2, 17])]), &[0, 0]].concat()),
        _ => {
            let mut out = small_book(random, taste).bytes();
            out.extend(vec![0; random.between(1, 3)]);
            out
        }
    }
}

/// Rule counts whose total is at the limit or above, in one chain or more.
fn rule_counts(random: &mut Random) -> Vec<u8> {
    let first = random.pick(&[0, 1, 500, 1_023, 1_024, 1_025]);
    let second = match random.below(4) {
        0 => u32::MAX,
        1 => random.pick(&[0, 1, 2]),
        _ => (1_024 + random.below(3) as u32).saturating_sub(first),
    };
    let mut out = numbers(&[1, 2, 1]);
    for count in [first, second] {
        write_number(&mut out, count);
        for _ in 0..count.min(1_025) {
            out.extend([random.below(6) as u8, 0]);
        }
    }
    out
}

// ---------------------------------------------------------------- damage

/// Where the numbers stand: a byte without its top bit ends one.
fn number_spans(bytes: &[u8]) -> Vec<(usize, usize)> {
    let mut spans = Vec::new();
    let mut start = 0;
    for (at, &byte) in bytes.iter().enumerate() {
        if byte < 128 {
            spans.push((start, at + 1));
            start = at + 1;
        }
    }
    spans
}

const VALUES: [u32; 26] = [
    0, 1, 2, 3, 4, 5, 6, 7, 8, 9, 15, 16, 17, 31, 32, 63, 64, 65, 127, 128, 255, 256, 1_025, 65_535,
    65_536, u32::MAX,
];

/// Writings that are no legal numbers, and two that just are.
fn odd_writing(random: &mut Random) -> Vec<u8> {
    let odd: [&[u8]; 10] = [
        &[0x80, 0x00],
        &[0x81, 0x00],
        &[0x80, 0x80, 0x00],
        &[0xFF, 0xFF, 0xFF, 0xFF, 0x10],
        &[0x80, 0x80, 0x80, 0x80, 0x00],
        &[0x80, 0x80, 0x80, 0x80, 0x80],
        &[0x80, 0x80, 0x80, 0x80, 0x80, 0x01],
        &[0xFF, 0xFF, 0xFF, 0xFF, 0xFF, 0xFF],
        &[0x80, 0x80, 0x80, 0x80, 0x01],
        &[0xFF, 0xFF, 0xFF, 0xFF, 0x0F],
    ];
    random.pick(&odd).to_vec()
}

/// Changes bytes: flipped, cut, put in, taken out, or one number for another.
pub fn damage(random: &mut Random, bytes: &mut Vec<u8>) {
    for _ in 0..random.pick(&[1, 1, 1, 2, 4]) {
        damage_once(random, bytes);
    }
}

fn damage_once(random: &mut Random, bytes: &mut Vec<u8>) {
    if bytes.is_empty() {
        bytes.push(random.word() as u8);
        return;
    }
    let at = random.below(bytes.len());
    match random.below(9) {
        0 => bytes[at] ^= 1 << random.below(8),
        1 => bytes[at] = random.pick(&[0, 1, 0x7F, 0x80, 0xFF]),
        2 => bytes.truncate(at),
        3 => bytes.insert(at, random.word() as u8),
        4 => {
            bytes.remove(at);
        }
        5 => bytes.extend(numbers(&[random.pick(&VALUES)])),
        _ => {
            let spans = number_spans(bytes);
            if let Some(&(start, end)) = spans.get(random.below(spans.len().max(1))) {
                let other = match random.below(4) {
                    0 => odd_writing(random),
                    _ => numbers(&[random.pick(&VALUES)]),
                };
                bytes.splice(start..end, other);
            }
        }
    }
}

// ---------------------------------------------------------------- plans

#[derive(Clone, Debug)]
pub struct DraftPort {
    pub number: u32,
    pub ranges: Vec<(u32, u32)>,
}

/// A legal plan, as ports with their ranges.
pub fn plan_ports(random: &mut Random, taste: &Taste) -> Vec<DraftPort> {
    let mut ports: Vec<u32> = taste.ports.clone();
    for _ in 0..random.below(3) {
        ports.push(random.below(32) as u32);
    }
    if random.chance(3) {
        ports = (0..32).collect();
    }
    if random.chance(3) {
        ports.clear();
    }
    ports.sort();
    ports.dedup();
    ports.into_iter().map(|number| DraftPort { number, ranges: plan_ranges(random, taste) }).collect()
}

fn plan_ranges(random: &mut Random, taste: &Taste) -> Vec<(u32, u32)> {
    if random.chance(3) {
        // Many ranges, up to the limit.
        let count = random.pick(&[16, 63, 64]);
        let gap = random.pick(&[2u32, 3, 1_000]);
        let first = random.pick(&[0, 1, 100]);
        return (0..count).map(|at| (first + at * 2 * gap, first + at * 2 * gap + gap - 1)).collect();
    }
    let mut drawn: Vec<(u32, u32)> = Vec::new();
    for _ in 0..random.pick(&[0, 1, 1, 2, 3]) {
        let (low, high) = range(random, taste);
        drawn.push((low.min(high), low.max(high)));
    }
    drawn.sort();
    let mut ranges: Vec<(u32, u32)> = Vec::new();
    for (low, high) in drawn {
        match ranges.last() {
            Some(&(_, before)) if u64::from(low) <= u64::from(before) + 1 => {}
            _ => ranges.push((low, high)),
        }
    }
    ranges
}

pub fn plan_bytes(ports: &[DraftPort]) -> Vec<u8> {
    let mut out = numbers(&[1, ports.len() as u32]);
    for port in ports {
        out.extend(numbers(&[port.number, port.ranges.len() as u32]));
        for &(low, high) in &port.ranges {
            out.extend(numbers(&[low, high]));
        }
    }
    out
}

/// A plan at one of its limits, or one above.
fn limit_plan(random: &mut Random, taste: &Taste) -> Vec<u8> {
    let most = u32::MAX;
    let near = edge(random, taste).min(most - 4);
    match random.below(9) {
        0 => numbers(&[random.pick(&[0, 1, 2, most]), 0]),
        1 => {
            let count = random.pick(&[0, 1, 32, 33, most]);
            let mut out = numbers(&[1, count]);
            (0..count.min(33)).for_each(|port| out.extend(numbers(&[port, 0])));
            out
        }
        2 => numbers(&[1, 1, random.pick(&[0, 31, 32, most]), 0]),
        3 => numbers(&[1, 2, 5, 0, random.pick(&[4, 5, 6]), 0]),
        4 => {
            let count = random.pick(&[63, 64, 65, most]);
            let mut out = numbers(&[1, 1, 0, count]);
            (0..count.min(65)).for_each(|at| out.extend(numbers(&[at * 3, at * 3 + 1])));
            out
        }
        5 => numbers(&[1, 1, 0, 1, near, near.saturating_add_signed(random.below(3) as i32 - 1)]),
        6 => numbers(&[1, 1, 0, 2, near, near + 1, near + 1 + random.below(3) as u32, most]),
        7 => numbers(&[1, 1, 0, 2, near, most, random.pick(&[0, 1, near, most]), most]),
        _ => {
            let mut out = numbers(&[1, 0]);
            out.resize(random.pick(&[32_767, 32_768, 32_769]), 0);
            out
        }
    }
}

// ---------------------------------------------------------------- packets and answers

pub fn packet(random: &mut Random, taste: &Taste) -> Packet {
    let address = |random: &mut Random| match random.below(8) {
        0 => 0,
        1 => u32::MAX,
        2 => random.word(),
        _ => edge(random, taste),
    };
    Packet {
        source: address(random),
        destination: address(random),
        protocol: random.pick(&[0, 1, 6, 17, 255, 256, u32::MAX]),
        destination_port: match random.below(4) {
            0 => random.pick(&[65_536, 1 << 31, u32::MAX]),
            _ => random.pick(&PORT_NUMBERS),
        },
        input_port: match random.below(4) {
            0 => random.pick(&[0, 31, 32, 33, 64, u32::MAX]),
            1 => random.below(32) as u32,
            _ => random.pick(&taste.ports),
        },
    }
}

pub fn answers(random: &mut Random) -> Vec<u8> {
    let length = if random.chance(94) { 32 } else { random.pick(&[0, 1, 31, 33, 64, 256]) };
    let all = random.below(4);
    (0..length)
        .map(|_| match all {
            0 => 0,
            1 => 255,
            _ => random.word() as u8,
        })
        .collect()
}

// ---------------------------------------------------------------- lists and states

/// Changes words of a list: huge counts, places near the end of the numbers,
/// offsets inside other numbers, other actions, cut parts, words behind.
/// Mostly at the rule that a state at `place` takes next.
pub fn damage_list(random: &mut Random, list: &mut Vec<u32>, place: usize) {
    if list.is_empty() {
        list.push(random.word());
        return;
    }
    let huge = [2, 3, 255, 1 << 16, 131_070, 131_071, 131_072, 1 << 31, u32::MAX - 3, u32::MAX - 2, u32::MAX];
    let starts = rule_starts(list);
    let rule = if place < list.len() && random.chance(65) { place } else { random.pick(&starts) };
    let at = random.below(list.len());
    let condition = rule + 3 + random.below(3);
    match random.below(14) {
        0 => list[rule] = random.pick(&huge),
        1 => set(list, rule + 2, random.pick(&huge)),
        2 => {
            let count = list.get(rule + 2).copied().unwrap_or(0);
            set(list, rule + 2, if random.chance(50) { count.wrapping_add(1) } else { count.wrapping_sub(1) });
        }
        3 => set(list, rule + 1, random.word()),
        4 => set(list, rule + 3, random.pick(&huge)),
        5 => list[at] = list[at].wrapping_add(random.pick(&[1, 2, u32::MAX, u32::MAX - 1])),
        6 => list[at] = random.pick(&huge),
        7 => list.truncate(at),
        8 => list.truncate(rule),
        9 => list.extend(vec![0; random.between(1, 3)]),
        10 => list[at] ^= 1,
        // Offsets beside and inside other numbers.
        11 => {
            let word = list.get(condition).copied().unwrap_or(0);
            set(list, condition, word.wrapping_add(random.pick(&[2, 3, 4, u32::MAX - 1, u32::MAX - 2])));
        }
        12 => set(list, condition, random.below(60) as u32),
        _ => set(list, condition, random.pick(&huge)),
    }
}

fn set(list: &mut [u32], at: usize, word: u32) {
    if at < list.len() {
        list[at] = word;
    }
}

fn rule_starts(list: &[u32]) -> Vec<usize> {
    let mut starts = vec![0];
    let mut place = 0usize;
    while place + 2 < list.len() {
        place += 3 + list[place + 2] as usize;
        if place < list.len() {
            starts.push(place);
        }
    }
    starts
}

/// Many ranges in the set's one writing.
pub fn many_suspects(random: &mut Random, count: usize) -> Vec<(u32, u32)> {
    let gap = random.pick(&[2u32, 10, 1_000, 6_000_000]);
    spaced_suspects(random.pick(&[0, 1, 77]), gap, count)
}

/// Ranges with just one source between each and the next.
pub fn spaced_suspects(first: u32, gap: u32, count: usize) -> Vec<(u32, u32)> {
    (0..count as u32).map(|at| (first + at * gap, first + at * gap + gap - 2)).collect()
}

/// Changes one field of a state to what it may not or must not be.
pub fn damage_state(random: &mut Random, state: &mut State, list: usize) {
    let slot = random.below(state.count.clamp(1, MAX_RANGES));
    let unused = random.between(state.count.min(MAX_RANGES - 1), MAX_RANGES - 1);
    match random.below(14) {
        0 => state.port = random.pick(&[0, 1, 31, 32, 4_000, u32::MAX]),
        1 => state.place = state.place.wrapping_add(random.pick(&[1, 2, 3, usize::MAX])),
        2 => {
            let places = [list, list + 1, list.saturating_sub(1), list.saturating_sub(2), list.saturating_sub(3)];
            state.place = random.pick(&places);
        }
        3 => state.place = random.pick(&[u32::MAX as usize, usize::MAX, usize::MAX - 2, 1 << 63]),
        4 => state.phase = Phase::Certified,
        5 => state.phase = Phase::Refused { rule: random.word(), source: random.word() },
        6 => state.count = random.pick(&[0, 1, 2, 639, 640, 641, 1_000, u32::MAX as usize, usize::MAX]),
        7 => state.count = state.count.wrapping_add(random.pick(&[1, usize::MAX])),
        8 => std::mem::swap(&mut state.low[slot], &mut state.high[slot]),
        9 => state.low[unused] = random.pick(&[1, u32::MAX]),
        10 => state.high[unused] = random.pick(&[1, u32::MAX]),
        11 => state.low[MAX_RANGES - 1] = random.word(),
        12 if slot > 0 => {
            // Touching, overlapping, or with just one source between.
            let shift = random.pick(&[0, 1, 2]);
            state.low[slot] = state.high[slot - 1].wrapping_add(shift);
        }
        _ => state.high[slot] = random.pick(&[0, 1, u32::MAX - 1, u32::MAX]),
    }
}

// ---------------------------------------------------------------- whole cases

/// One input for every entry.
#[derive(Clone, Debug)]
pub struct Case {
    pub book: Vec<u8>,
    pub plan: Vec<u8>,
    pub port: u32,
    /// The lent words, with something standing in them.
    pub words: Vec<u32>,
    pub answers: Vec<u8>,
    pub packet: Packet,
    pub rule: u32,
    /// For one step: a list part and a state, often the book's own.
    pub list: Vec<u32>,
    pub state: State,
}

/// Above this need no room is lent, so that cases stay small.
const MOST_ROOM: usize = 200_000;

pub fn case(seed: u64) -> Case {
    let mut random = Random::new(seed);
    let random = &mut random;
    let taste = taste(random);
    let ports = plan_ports(random, &taste);
    let plan = match random.below(100) {
        0..=3 => limit_plan(random, &taste),
        4..=7 => {
            let mut plan = plan_bytes(&ports);
            damage(random, &mut plan);
            plan
        }
        _ => plan_bytes(&ports),
    };
    let port = match random.below(100) {
        0..=3 => random.pick(&[0, 31, 32, 33, u32::MAX]),
        4..=6 => random.below(32) as u32,
        _ if ports.is_empty() => 0,
        _ => random.pick(&ports).number,
    };
    if random.chance(4) {
        return split_case(random, &taste, plan, port);
    }
    let book = some_book(random, &taste, &ports);
    let (list, words) = list_and_words(random, &book);
    let state = some_state(random, &taste, &book, &plan, port, &list);
    let rule = some_rule_number(random, &book);
    let (list, state) = spoil_slice(random, list, state);
    Case { book, plan, port, words, answers: answers(random), packet: packet(random, &taste), rule, list, state }
}

fn some_book(random: &mut Random, taste: &Taste, ports: &[DraftPort]) -> Vec<u8> {
    match random.below(1_000) {
        0..=299 => small_book(random, taste).bytes(),
        300..=599 => guarded_book(random, taste, ports).bytes(),
        600..=639 => nested_book(random, taste).bytes(),
        640..=769 => limit_book(random, taste),
        770..=809 => looping_book(random, taste).bytes(),
        810..=817 => large_book(random, taste).bytes(),
        818..=827 => {
            let weight = random.pick(&[100, 2_000, 16_383, 16_384, 16_385, 16_386]);
            weight_book(random, weight).bytes()
        }
        828..=832 => heavy_chains(random).bytes(),
        833..=842 => {
            let length = random.pick(&[65_534, 65_535, 65_536, 65_537]);
            book_of_bytes(random, length)
        }
        843..=854 => {
            let count = random.pick(&[511, 512, 513, 514]);
            book_of_sources(random, taste, count).bytes()
        }
        855..=859 => (0..random.below(40)).map(|_| random.word() as u8).collect(),
        860..=864 => (0..random.below(40)).map(|_| random.below(10) as u8).collect(),
        _ => {
            let mut book = match random.below(4) {
                0 => small_book(random, taste).bytes(),
                1 => nested_book(random, taste).bytes(),
                2 => limit_book(random, taste),
                _ => guarded_book(random, taste, ports).bytes(),
            };
            damage(random, &mut book);
            book
        }
    }
}

/// The book's own list (empty if it has none) and lent words around its need.
fn list_and_words(random: &mut Random, book: &[u8]) -> (Vec<u32>, Vec<u32>) {
    let mut list = Vec::new();
    let mut room = random.below(50);
    if let Ok(book) = read_book(book) {
        let needed = need(&book).0;
        if needed <= MOST_ROOM {
            list = vec![0; needed];
            unfold_book(&book, &mut list).expect("there is room");
            room = match random.below(20) {
                0 => needed - 1,
                1 => random.below(needed),
                2..=7 => needed,
                _ => needed + random.below(9),
            };
        }
    }
    let words = (0..room).map(|_| random.word()).collect();
    (list, words)
}

/// A state: from the start and some steps on, or made up.
fn some_state(
    random: &mut Random,
    taste: &Taste,
    book: &[u8],
    plan: &[u8],
    port: u32,
    list: &[u32],
) -> State {
    let mut room = list.to_vec();
    let started = crate::slices::start(book, plan, port, &mut room);
    let mut state = match started {
        Ok((_, _, state)) if random.chance(80) => state,
        _ => {
            let suspects = if random.chance(80) { plan_ranges(random, taste) } else {
                let count = random.pick(&[1, 2, 20, 600, 639, 640]);
                many_suspects(random, count)
            };
            State::running(port, &suspects)
        }
    };
    let Ok(book) = read_book(book) else { return state };
    let steps = match random.below(10) {
        0..=4 => random.below(4),
        5 => 0,
        _ => 40,
    };
    // Somewhere on the way, the last step still to be taken more often than not.
    for _ in 0..steps {
        match step_in(&book, list, &state) {
            Ok(next) if next.phase == Phase::Running || random.chance(15) => state = next,
            _ => break,
        }
    }
    state
}

fn spoil_slice(random: &mut Random, list: Vec<u32>, state: State) -> (Vec<u32>, State) {
    let (mut list, mut state) = (list, state);
    if random.chance(15) {
        damage_list(random, &mut list, state.place);
    }
    if random.chance(18) {
        damage_state(random, &mut state, list.len());
    }
    (list, state)
}

fn some_rule_number(random: &mut Random, book: &[u8]) -> u32 {
    let total = read_book(book).map_or(1, |book| book.total);
    match random.below(10) {
        0 => total,
        1 => random.pick(&[0, total.saturating_sub(1), total + 1, 1_024, 65_536, u32::MAX]),
        _ => random.below(total.max(1) as usize) as u32,
    }
}

/// A full set of suspects and a drop that cuts holes into it: 15, or just not.
fn split_case(random: &mut Random, taste: &Taste, plan: Vec<u8>, port: u32) -> Case {
    let count = random.pick(&[638, 639, 639, 640, 640, 640]);
    let gap = random.pick(&[4u32, 5, 10, 1_000, 6_000_000]);
    let suspects = spaced_suspects(random.pick(&[0, 1, 77]), gap, count);
    let mut rules = Vec::new();
    for _ in 0..random.between(1, 3) {
        let holes = random.between(1, 3);
        let mut expression = numbers(&[1, 2, holes as u32 + 1, 0]);
        for _ in 0..holes {
            let (low, high) = random.pick(&suspects);
            // Inside a range, at one of its ends, over the whole of it, or reversed.
            let (a, b) = match random.below(9) {
                0 => (low, high.saturating_sub(1)),
                1 => (low.saturating_add(1), high),
                2 => (low, high),
                3 => (high, low),
                _ => (low.saturating_add(1), high.saturating_sub(1)),
            };
            expression.extend(numbers(&[1, 3, a, b]));
        }
        rules.push(plain(random.pick(&[1, 1, 2]), &expression));
    }
    let draft = Draft { policy: random.below(2) as u32, chains: vec![rules] };
    let book = draft.bytes();
    let (list, words) = list_and_words(random, &book);
    let mut state = State::running(port, &suspects);
    if random.chance(60) {
        state.place = random.pick(&rule_starts(&list));
    }
    let list = if random.chance(50) {
        // The drop as the last rule.
        let starts = rule_starts(&list);
        list[..*starts.last().unwrap()].to_vec()
    } else {
        list
    };
    let (list, state) = if random.chance(15) { spoil_slice(random, list, state) } else { (list, state) };
    let rule = some_rule_number(random, &book);
    Case { book, plan, port, words, answers: answers(random), packet: packet(random, taste), rule, list, state }
}
