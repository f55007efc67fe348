//! The vectors' file: cases with what a call answers and leaves, for a program that has no Rust at hand.
//!
//! Plain text: lines of lower-case hexadecimal numbers below 2^32 with one space between; a line that begins with `#` is a remark. A list
//! is its length, then its elements. An amount is the bits of its f32. A case is these lines:
//!
//! | lines | what stands on them |
//! |---|---|
//! | 1 | the call: 1 equalize, 2 depressurize, 3 planet walk |
//! | 8 | the lists ids, flags, planetary, mixtures, starts, neighbours, link flags, immutable |
//! | 1 | gases |
//! | 1 | the list of amounts |
//! | 3 | how long the event area, the scratch words and the scratch floats are; `Case::lend` says what they hold |
//! | 5, 3 or 2 | what is asked: of equalize the lists of hot ids and turns, threshold, limit, allowance; of depressurize id, limit, arrows; else id, limit |
//! | 1 | the list of numbers answered |
//! | 1 | the list of amounts afterwards |
//! | 1 | the list of event bytes written; the area's other bytes are unchanged |
//! | 2 | how many scratch words, and floats, from the first are 0 afterwards; the others are unchanged |
//!
//! The program `replay` reads it, into arrays of a fixed size: `fits` says which cases they hold.

use crate::case::{Board, Breach, Call, Case, Equalize, Room, Walk};
use crate::outcome::{Outcome, bits};
use std::fmt::Write;

/// What takes a case's numbers and lists: lines of text, or a packet.
pub trait Sink {
    fn number(&mut self, number: u32);
    fn words(&mut self, list: &[u32]);
    fn bytes(&mut self, list: &[u8]);
}

/// Lines of hexadecimal numbers.
impl Sink for String {
    fn number(&mut self, number: u32) {
        writeln!(self, "{number:x}").unwrap();
    }
    fn words(&mut self, list: &[u32]) {
        write!(self, "{:x}", list.len()).unwrap();
        list.iter().for_each(|item| write!(self, " {item:x}").unwrap());
        self.push('\n');
    }
    fn bytes(&mut self, list: &[u8]) {
        self.words(&list.iter().map(|&byte| byte.into()).collect::<Vec<_>>());
    }
}

/// A packet, for a program that only compares: a number is four bytes, the lowest first; a list is its length in bytes, then its elements.
impl Sink for Vec<u8> {
    fn number(&mut self, number: u32) {
        self.extend(number.to_le_bytes());
    }
    fn words(&mut self, list: &[u32]) {
        self.number(4 * list.len() as u32);
        list.iter().for_each(|&item| self.number(item));
    }
    fn bytes(&mut self, list: &[u8]) {
        self.number(list.len() as u32);
        self.extend(list);
    }
}

/// One case and its outcome, as lines.
pub fn write(case: &Case, outcome: &Outcome) -> String {
    let mut out = String::new();
    put(&mut out, case, outcome);
    out
}

/// One case and its outcome.
pub fn put(out: &mut impl Sink, case: &Case, outcome: &Outcome) {
    let board = &case.board;
    out.number(case.call.number());
    out.words(&board.ids);
    out.bytes(&board.flags);
    out.bytes(&board.planetary);
    out.words(&board.mixtures);
    out.words(&board.starts);
    out.words(&board.neighbours);
    out.bytes(&board.link_flags);
    out.bytes(&board.immutable);
    out.number(board.gases);
    out.words(&bits(&board.amounts));
    [case.events.len(), case.words.len(), case.floats.len()].into_iter().for_each(|n| out.number(n as u32));
    match &case.call {
        Call::Equalize(ask) => {
            out.words(&ask.hot);
            out.words(&ask.turns);
            [ask.threshold.to_bits(), ask.limit, ask.allowance].into_iter().for_each(|n| out.number(n));
        }
        Call::Depressurize(breach) => [breach.id, breach.limit, breach.arrows].into_iter().for_each(|n| out.number(n)),
        Call::PlanetWalk(walk) => [walk.id, walk.limit].into_iter().for_each(|n| out.number(n)),
    }
    out.words(&outcome.answer);
    out.words(&bits(&outcome.amounts));
    let done = outcome.answer[0] == 0;
    let (room, written) = (case.room(), outcome.answer[outcome.answer.len() - 1] as usize);
    out.bytes(if done { &outcome.events[..written] } else { &[] });
    [room.words, room.floats].into_iter().for_each(|n| out.number(if done { n as u32 } else { 0 }));
}

/// Whether the program that replays vectors has room for the case.
pub fn fits(case: &Case) -> bool {
    let board = &case.board;
    let (hot, turns) = match &case.call {
        Call::Equalize(ask) => (ask.hot.len(), ask.turns.len()),
        _ => (0, 0),
    };
    let rows = [board.ids.len(), board.flags.len(), board.planetary.len(), board.mixtures.len(), board.starts.len(), board.immutable.len()];
    rows.into_iter().all(|length| length <= 66)
        && board.neighbours.len() <= 512
        && board.link_flags.len() <= 512
        && board.amounts.len() <= 192
        && case.events.len() <= 12_000
        && case.words.len() <= 4_000
        && case.floats.len() <= 2_000
        && hot <= 4_097
        && turns <= 128
}

/// Takes the numbers of a file one after the other.
struct Numbers<'a>(Box<dyn Iterator<Item = u32> + 'a>);

impl Numbers<'_> {
    fn list<T>(&mut self, from: impl Fn(u32) -> T) -> Option<Vec<T>> {
        let count = self.0.next()?;
        let items: Vec<T> = self.0.by_ref().take(count as usize).map(from).collect();
        (items.len() == count as usize).then_some(items)
    }
    fn words(&mut self) -> Option<Vec<u32>> {
        self.list(|n| n)
    }
    fn bytes(&mut self) -> Option<Vec<u8>> {
        self.list(|n| n as u8)
    }
    fn floats(&mut self) -> Option<Vec<f32>> {
        self.list(f32::from_bits)
    }

    /// The next case and its outcome.
    fn case(&mut self) -> Option<(Case, Outcome)> {
        let call = self.0.next()?;
        let board = Board {
            ids: self.words()?,
            flags: self.bytes()?,
            planetary: self.bytes()?,
            mixtures: self.words()?,
            starts: self.words()?,
            neighbours: self.words()?,
            link_flags: self.bytes()?,
            immutable: self.bytes()?,
            gases: self.0.next()?,
            amounts: self.floats()?,
        };
        let mut next = || self.0.next().map(|n| n as usize);
        let room = Room { events: next()?, words: next()?, floats: next()? };
        let call = match call {
            1 => Call::Equalize(Equalize {
                hot: self.words()?,
                turns: self.words()?,
                threshold: f32::from_bits(self.0.next()?),
                limit: self.0.next()?,
                allowance: self.0.next()?,
            }),
            2 => Call::Depressurize(Breach { id: self.0.next()?, limit: self.0.next()?, arrows: self.0.next()? }),
            _ => Call::PlanetWalk(Walk { id: self.0.next()?, limit: self.0.next()? }),
        };
        let mut case = Case { board, call, events: Vec::new(), words: Vec::new(), floats: Vec::new() };
        case.lend(room);
        let mut outcome = case.refused(0);
        (outcome.answer, outcome.amounts) = (self.words()?, self.floats()?);
        let written = self.bytes()?;
        outcome.events[..written.len()].copy_from_slice(&written);
        outcome.words[..self.0.next()? as usize].fill(0);
        outcome.floats[..self.0.next()? as usize].fill(0.0);
        Some((case, outcome))
    }
}

/// The cases of a file, with their outcomes.
pub fn read(text: &str) -> Vec<(Case, Outcome)> {
    let lines = text.lines().filter(|line| !line.starts_with('#'));
    let numbers = lines.flat_map(str::split_whitespace).map(|word| u32::from_str_radix(word, 16).expect("a hexadecimal number"));
    let mut numbers = Numbers(Box::new(numbers));
    std::iter::from_fn(|| numbers.case()).collect()
}
