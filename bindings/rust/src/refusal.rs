//! Refusals. The library gives the number; what is wrong is then looked up in the tables, rule by rule in the library's order.

use crate::ask::Ask;
use crate::board::Tables;
use crate::most;
use std::fmt;

/// Why a call was refused. The board is then as it was.
#[derive(Clone, Copy, Debug, PartialEq)]
#[non_exhaustive]
pub enum Refusal {
    /// 1: a size outside its limits.
    Sizes { table: &'static str, size: usize, span: Span },
    /// 2: a table's length doesn't fit the others.
    Tables { table: &'static str, length: usize, due: usize },
    /// 3: the id in this row isn't above the one before.
    Ids { row: usize, id: u32 },
    /// 4: starts, neighbours or mixture rows, at this row.
    Links { row: usize, fault: LinkFault },
    /// 5: an amount outside its range.
    Amounts { mixture: usize, gas: usize, amount: f32 },
    /// 5: a threshold that isn't finite or has its sign bit set.
    Threshold { threshold: f32 },
    /// 5: an event's amount that isn't finite.
    EventAmount { amount: f32 },
    /// 6: the hot id at this place isn't above the one before.
    Hot { place: usize, id: u32 },
    /// 7: an area too short.
    Room { table: &'static str },
    /// 8: a bad event record at this offset.
    Record { offset: u32 },
    /// A number without a known reason.
    Other { number: u32 },
}

/// The least and the most that a size may be.
#[derive(Clone, Copy, Debug, PartialEq, Eq)]
pub struct Span {
    pub least: usize,
    pub most: usize,
}

/// What is wrong with a turf's row. A `link` counts from 0 over the whole link table.
#[derive(Clone, Copy, Debug, PartialEq, Eq)]
pub enum LinkFault {
    /// The first start isn't 0.
    FirstStart { start: u32 },
    /// The next start is below this one.
    Falling { start: u32, next: u32 },
    /// The last start isn't the number of links.
    LastStart { start: u32, links: usize },
    /// No turf has the row that a link names.
    Neighbour { link: usize, neighbour: u32 },
    /// A link from the turf to itself.
    Itself { link: usize },
    /// A neighbour that an earlier link of this row names.
    Twice { link: usize, neighbour: u32 },
    /// No mixture has the turf's mixture row.
    Mixture { mixture: u32 },
}

impl Refusal {
    /// The library's number.
    pub fn number(&self) -> u32 {
        match self {
            Refusal::Sizes { .. } => 1,
            Refusal::Tables { .. } => 2,
            Refusal::Ids { .. } => 3,
            Refusal::Links { .. } => 4,
            Refusal::Amounts { .. } | Refusal::Threshold { .. } | Refusal::EventAmount { .. } => 5,
            Refusal::Hot { .. } => 6,
            Refusal::Room { .. } => 7,
            Refusal::Record { .. } => 8,
            Refusal::Other { number } => *number,
        }
    }
}

impl fmt::Display for Refusal {
    fn fmt(&self, f: &mut fmt::Formatter) -> fmt::Result {
        match self {
            Refusal::Sizes { table, size, span } => write!(f, "{table}: {size}, which isn't {} to {}", span.least, span.most),
            Refusal::Tables { table, length, due } => write!(f, "{table}: {length} elements where {due} are due"),
            Refusal::Ids { row, id } => write!(f, "ids: row {row}, id {id}, isn't above the row before"),
            Refusal::Links { row, fault } => write!(f, "{fault} (row {row})"),
            Refusal::Amounts { mixture, gas, amount } => {
                write!(f, "amounts: mixture {mixture}, gas {gas}: {amount:?} isn't finite, without a sign and at most 2^40")
            }
            Refusal::Threshold { threshold } => write!(f, "threshold: {threshold:?} isn't finite and without a sign"),
            Refusal::EventAmount { amount } => write!(f, "event: the amount {amount:?} isn't finite"),
            Refusal::Hot { place, id } => write!(f, "hot: place {place}, id {id}, isn't above the place before"),
            Refusal::Room { table } => write!(f, "{table}: the area is too short"),
            Refusal::Record { offset } => write!(f, "events: a bad record at offset {offset}"),
            Refusal::Other { number } => write!(f, "refused by rule {number}"),
        }
    }
}

impl fmt::Display for LinkFault {
    fn fmt(&self, f: &mut fmt::Formatter) -> fmt::Result {
        match self {
            LinkFault::FirstStart { start } => write!(f, "starts: the first is {start}, not 0"),
            LinkFault::Falling { start, next } => write!(f, "starts: {next} follows {start}"),
            LinkFault::LastStart { start, links } => write!(f, "starts: the last is {start}, and there are {links} links"),
            LinkFault::Neighbour { link, neighbour } => write!(f, "neighbours: link {link} names row {neighbour}, which isn't there"),
            LinkFault::Itself { link } => write!(f, "neighbours: link {link} runs from its turf to itself"),
            LinkFault::Twice { link, neighbour } => write!(f, "neighbours: link {link} names row {neighbour} a second time"),
            LinkFault::Mixture { mixture } => write!(f, "mixtures: mixture row {mixture} isn't there"),
        }
    }
}

impl std::error::Error for Refusal {}

/// What is wrong, given the rule's number.
pub fn explain(number: u32, t: &Tables, ask: Option<&Ask>) -> Refusal {
    let found = match number {
        1 => wrong_size(t, ask),
        2 => wrong_length(t),
        3 => unordered(&t.ids).map(|row| Refusal::Ids { row, id: t.ids[row] }),
        4 => wrong_links(t),
        5 => wrong_amount(t).or(ask.map(|ask| Refusal::Threshold { threshold: ask.threshold })),
        6 => ask.and_then(|ask| unordered(ask.hot).map(|place| Refusal::Hot { place, id: ask.hot[place] })),
        7 => Some(Refusal::Room { table: "events or scratch" }),
        _ => None,
    };
    found.unwrap_or(Refusal::Other { number })
}

/// The first size outside its limits.
fn wrong_size(t: &Tables, ask: Option<&Ask>) -> Option<Refusal> {
    let (hot, turns) = ask.map_or((0, 0), |ask| (ask.hot.len(), ask.turns.len()));
    let sizes = [
        ("ids", t.ids.len(), 1, most::TURFS),
        ("immutable", t.immutable.len(), 1, most::MIXTURES),
        ("neighbours", t.neighbours.len(), 0, most::LINKS),
        ("gases", t.gases as usize, 1, most::GASES),
        ("hot", hot, 0, most::HOT),
        ("turns", turns, 0, most::TURNS),
    ];
    let (table, size, least, most) = sizes.into_iter().find(|&(_, size, least, most)| size < least || size > most)?;
    Some(Refusal::Sizes { table, size, span: Span { least, most } })
}

/// The first table whose length doesn't fit.
fn wrong_length(t: &Tables) -> Option<Refusal> {
    let (n, e, m) = (t.ids.len(), t.neighbours.len(), t.immutable.len());
    let lengths = [
        ("flags", t.flags.len(), n),
        ("planetary", t.planetary.len(), n),
        ("mixtures", t.mixtures.len(), n),
        ("starts", t.starts.len(), n + 1),
        ("link_flags", t.link_flags.len(), e),
        ("amounts", t.amounts.len(), m * t.gases as usize),
    ];
    let (table, length, due) = lengths.into_iter().find(|&(_, length, due)| length != due)?;
    Some(Refusal::Tables { table, length, due })
}

/// The first place that isn't above the one before.
fn unordered(ids: &[u32]) -> Option<usize> {
    ids.windows(2).position(|pair| pair[0] >= pair[1]).map(|before| before + 1)
}

/// The first fault of the starts, then of a row.
fn wrong_links(t: &Tables) -> Option<Refusal> {
    let (row, fault) = wrong_start(t).or_else(|| (0..t.ids.len()).find_map(|row| Some((row, wrong_row(t, row)?))))?;
    Some(Refusal::Links { row, fault })
}

/// Starts that don't run from 0 to the number of links without falling.
fn wrong_start(t: &Tables) -> Option<(usize, LinkFault)> {
    let (&first, &last) = (t.starts.first()?, t.starts.last()?);
    if first != 0 {
        return Some((0, LinkFault::FirstStart { start: first }));
    }
    if let Some(row) = t.starts.windows(2).position(|pair| pair[0] > pair[1]) {
        return Some((row, LinkFault::Falling { start: t.starts[row], next: t.starts[row + 1] }));
    }
    let links = t.neighbours.len();
    (last as usize != links).then_some((t.ids.len(), LinkFault::LastStart { start: last, links }))
}

/// A row's mixture, then its links. The starts are right.
fn wrong_row(t: &Tables, row: usize) -> Option<LinkFault> {
    let (from, to) = (t.starts[row] as usize, t.starts[row + 1] as usize);
    if t.mixtures[row] as usize >= t.immutable.len() {
        return Some(LinkFault::Mixture { mixture: t.mixtures[row] });
    }
    (from..to).find_map(|link| match t.neighbours[link] {
        neighbour if neighbour as usize >= t.ids.len() => Some(LinkFault::Neighbour { link, neighbour }),
        neighbour if neighbour as usize == row => Some(LinkFault::Itself { link }),
        neighbour if t.neighbours[from..link].contains(&neighbour) => Some(LinkFault::Twice { link, neighbour }),
        _ => None,
    })
}

/// The first amount outside its range.
fn wrong_amount(t: &Tables) -> Option<Refusal> {
    let at = t.amounts.iter().position(|amount| !amount.is_finite() || amount.is_sign_negative() || *amount > most::AMOUNT)?;
    let gases = t.gases.max(1) as usize;
    Some(Refusal::Amounts { mixture: at / gases, gas: at % gases, amount: t.amounts[at] })
}
