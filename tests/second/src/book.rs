//! Reading a book strictly from left to right into plain chains, rules and expressions.

use crate::calls::{lowest_looping_chain, weight};
use crate::number::read_number;
use crate::{refuse, Refusal};
use std::collections::BTreeMap;

pub const BOOK_BYTES: usize = 65_535;
pub const CHAINS: u32 = 64;
pub const RULES: u64 = 1_024;
pub const LEVELS: u32 = 16;
pub const SOURCES: usize = 512;
pub const WEIGHT: u128 = 16_384;

#[derive(Clone, Debug, PartialEq, Eq)]
pub struct Expression {
    /// Where its kind stands in the book.
    pub offset: usize,
    pub test: Test,
}

#[derive(Clone, Debug, PartialEq, Eq)]
pub enum Test {
    Always,
    Not(Box<Expression>),
    All(Vec<Expression>),
    Source(u32, u32),
    EnteredBy(u32),
    Destination(u32, u32),
    Protocol(u32),
    DestinationPort(u32, u32),
    Unread(u32),
}

#[derive(Clone, Copy, Debug, PartialEq, Eq)]
pub enum Action {
    Accept,
    Drop,
    Reject,
    Log,
    Empty,
    Return,
    Call(usize),
}

#[derive(Clone, Debug)]
pub struct Rule {
    pub number: u32,
    /// The rule's own bytes, action through expression, are start..end.
    pub start: usize,
    pub end: usize,
    pub action: Action,
    pub expression: Expression,
}

#[derive(Clone, Debug)]
pub struct Book {
    pub policy: u32,
    pub chains: Vec<Vec<Rule>>,
    pub total: u32,
    /// Which rule's own expression starts at an offset: (chain, rule within it).
    starts: BTreeMap<usize, (usize, usize)>,
}

impl Book {
    pub fn rules(&self) -> impl Iterator<Item = &Rule> {
        self.chains.iter().flatten()
    }

    /// The expression of the rule whose own expression starts at this offset.
    pub fn expression_at(&self, offset: usize) -> Option<&Expression> {
        let &(chain, rule) = self.starts.get(&offset)?;
        Some(&self.chains[chain][rule].expression)
    }
}

/// Checks a book: refusals 1 to 10, else the counts of chains and rules.
pub fn check(bytes: &[u8]) -> Result<(usize, usize), Refusal> {
    let book = read_book(bytes)?;
    Ok((book.chains.len(), book.total as usize))
}

/// Reads a book with every refusal that a book can meet, 1 to 10.
pub fn read_book(bytes: &[u8]) -> Result<Book, Refusal> {
    let book = read_bytes(bytes)?;
    if let Some(chain) = lowest_looping_chain(&book.chains) {
        return refuse(9, chain);
    }
    if weight(&book.chains, 0) > WEIGHT {
        return refuse(10, 0);
    }
    Ok(book)
}

/// Length first, then everything from left to right: refusals 1 to 8.
fn read_bytes(bytes: &[u8]) -> Result<Book, Refusal> {
    if bytes.len() > BOOK_BYTES {
        return refuse(1, 0);
    }
    let mut reader = Reader { bytes, place: 0, chains: 0, sources: 0 };
    reader.field(1, 1)?;
    reader.chains = reader.field(1, CHAINS)?;
    let policy = reader.field(0, 1)?;
    let mut chains = Vec::new();
    let mut total: u64 = 0;
    for _ in 0..reader.chains {
        chains.push(reader.chain(&mut total)?);
    }
    if reader.place < bytes.len() {
        return refuse(8, reader.place);
    }
    let mut starts = BTreeMap::new();
    for (c, chain) in chains.iter().enumerate() {
        for (r, rule) in chain.iter().enumerate() {
            starts.insert(rule.expression.offset, (c, r));
        }
    }
    Ok(Book { policy, chains, total: total as u32, starts })
}

struct Reader<'a> {
    bytes: &'a [u8],
    place: usize,
    /// Chains in the book, to judge called chains.
    chains: u32,
    /// Expressions of kind 3 read so far, in all chains.
    sources: usize,
}

impl Reader<'_> {
    fn number(&mut self) -> Result<u32, Refusal> {
        let (value, behind) = read_number(self.bytes, self.place)?;
        self.place = behind;
        Ok(value)
    }

    /// A number with limits, judged as soon as it is read.
    fn field(&mut self, least: u32, most: u32) -> Result<u32, Refusal> {
        let start = self.place;
        let value = self.number()?;
        if value < least || value > most {
            return refuse(4, start);
        }
        Ok(value)
    }

    fn chain(&mut self, total: &mut u64) -> Result<Vec<Rule>, Refusal> {
        let start = self.place;
        let count = u64::from(self.number()?);
        // In 64 bits, so that a huge count cannot wrap back under the limit.
        if *total + count > RULES {
            return refuse(4, start);
        }
        let mut rules = Vec::new();
        for _ in 0..count {
            rules.push(self.rule(*total as u32)?);
            *total += 1;
        }
        Ok(rules)
    }

    fn rule(&mut self, number: u32) -> Result<Rule, Refusal> {
        let start = self.place;
        let action = match self.field(0, 6)? {
            0 => Action::Accept,
            1 => Action::Drop,
            2 => Action::Reject,
            3 => Action::Log,
            4 => Action::Empty,
            5 => Action::Return,
            _ => Action::Call(self.called_chain()?),
        };
        let expression = self.expression(1)?;
        Ok(Rule { number, start, end: self.place, action, expression })
    }

    fn called_chain(&mut self) -> Result<usize, Refusal> {
        let start = self.place;
        let chain = self.number()?;
        if chain == 0 || chain >= self.chains {
            return refuse(5, start);
        }
        Ok(chain as usize)
    }

    fn expression(&mut self, level: u32) -> Result<Expression, Refusal> {
        let offset = self.place;
        // Before the kind is read: 6 goes before 2, 3 and 4.
        if level > LEVELS {
            return refuse(6, offset);
        }
        let test = match self.field(0, 8)? {
            0 => Test::Always,
            1 => Test::Not(Box::new(self.expression(level + 1)?)),
            2 => {
                let count = self.field(2, 16)?;
                let mut parts = Vec::new();
                for _ in 0..count {
                    parts.push(self.expression(level + 1)?);
                }
                Test::All(parts)
            }
            3 => {
                self.sources += 1;
                // At the kind, before low and high.
                if self.sources > SOURCES {
                    return refuse(7, offset);
                }
                let low = self.number()?;
                Test::Source(low, self.number()?)
            }
            4 => Test::EnteredBy(self.field(0, 31)?),
            5 => {
                let low = self.number()?;
                Test::Destination(low, self.number()?)
            }
            6 => Test::Protocol(self.field(0, 255)?),
            7 => {
                let low = self.field(0, 65_535)?;
                Test::DestinationPort(low, self.field(0, 65_535)?)
            }
            _ => Test::Unread(self.field(0, 255)?),
        };
        Ok(Expression { offset, test })
    }
}
