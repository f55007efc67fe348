//! A board as text: a line for each turf, link and call. docs/BOARDS.md says how it is written.

use katmos::{most, Arrows, Board, Link, Mixture, Turf, ENABLED, FIRELOCK};
use std::collections::HashMap;
use std::fmt;

/// What is wrong with a line; lines count from 1.
#[derive(Clone, Debug, PartialEq)]
pub struct Fault {
    pub line: usize,
    pub message: String,
}

impl fmt::Display for Fault {
    fn fmt(&self, f: &mut fmt::Formatter) -> fmt::Result {
        write!(f, "line {}: {}", self.line, self.message)
    }
}

/// A room to draw: its turf, its name, its place on the grid where one is given.
#[derive(Clone, Debug, PartialEq)]
pub struct Place {
    pub id: u32,
    pub name: String,
    pub at: Option<(i32, i32)>,
}

/// A call to make.
#[derive(Clone, Debug, PartialEq)]
pub enum Call {
    Equalize {
        hot: Vec<u32>,
        turns: Vec<u32>,
        threshold: f32,
        limit: u32,
        allowance: u32,
    },
    Depressurize {
        id: u32,
        limit: u32,
        arrows: Arrows,
    },
    PlanetWalk {
        id: u32,
        limit: u32,
    },
    /// Depressurize and planet walks, as the last equalize asked for them.
    Answer {
        limit: u32,
        arrows: Arrows,
    },
}

/// A board with its rooms and the calls to make, each with its line.
#[derive(Clone, Debug, Default)]
pub struct Script {
    pub title: String,
    pub board: Board,
    pub places: Vec<Place>,
    pub calls: Vec<(usize, Call)>,
}

/// A line's words: those that stand alone, and the values of those with `=`.
struct Words<'a> {
    plain: Vec<&'a str>,
    keys: Vec<(&'a str, &'a str)>,
}

/// What reading one line can come to.
type Read<T> = Result<T, String>;

impl<'a> Words<'a> {
    /// The words of a line whose spaces are tidy.
    fn of(line: &'a str) -> Words<'a> {
        let (keys, plain): (Vec<&str>, Vec<&str>) = line.split_whitespace().partition(|word| word.contains('='));
        Words { plain, keys: keys.into_iter().filter_map(|word| word.split_once('=')).collect() }
    }

    /// Takes the value of a key.
    fn key(&mut self, name: &str) -> Option<&'a str> {
        let at = self.keys.iter().position(|(key, _)| key.eq_ignore_ascii_case(name))?;
        Some(self.keys.remove(at).1)
    }

    /// Takes the number of a key, or gives the usual one.
    fn number(&mut self, name: &str, usual: u32) -> Read<u32> {
        self.key(name).map_or(Ok(usual), |word| whole(name, word))
    }

    /// Takes where arrows are to run, or gives the text's.
    fn arrows(&mut self) -> Read<Arrows> {
        match self.key("arrows").map(str::to_ascii_lowercase).as_deref() {
            None | Some("as-text") => Ok(Arrows::AsText),
            Some("to-space") => Ok(Arrows::ToSpace),
            Some(word) => Err(format!("arrows '{word}' isn't as-text or to-space")),
        }
    }

    /// Takes a word that stands alone.
    fn mark(&mut self, name: &str) -> bool {
        let at = self.plain.iter().position(|word| word.eq_ignore_ascii_case(name));
        at.map(|at| self.plain.remove(at)).is_some()
    }

    /// Takes the first word, an id.
    fn id(&mut self) -> Read<u32> {
        if self.plain.is_empty() {
            return Err("an id is missing".into());
        }
        whole("id", self.plain.remove(0))
    }

    /// Nothing may be left.
    fn end(&self) -> Read<()> {
        match (self.plain.first(), self.keys.first()) {
            (Some(word), _) => Err(format!("'{word}' isn't understood here")),
            (_, Some((key, value))) => Err(format!("'{key}={value}' isn't understood here")),
            _ => Ok(()),
        }
    }
}

/// A whole number.
fn whole(name: &str, word: &str) -> Read<u32> {
    word.parse().map_err(|_| format!("{name} '{word}' isn't a whole number from 0 to {}", u32::MAX))
}

/// A number for an amount or a threshold, at most so large.
fn real(name: &str, word: &str, most: f32) -> Read<f32> {
    let fits = |value: &f32| value.is_finite() && value.is_sign_positive() && *value <= most;
    word.parse().ok().filter(fits).ok_or_else(|| format!("{name} '{word}' isn't a number from 0 to {most:e}"))
}

/// Numbers with commas between them.
fn list(name: &str, words: &str) -> Read<Vec<u32>> {
    words.split(',').filter(|word| !word.is_empty()).map(|word| whole(name, word)).collect()
}

/// A place on the grid: column, row.
fn place(words: &str) -> Read<(i32, i32)> {
    let numbers: Option<Vec<i32>> = words.split(',').map(|word| word.parse().ok().filter(|at| (-999..=999).contains(at))).collect();
    match numbers.as_deref() {
        Some([x, y]) => Ok((*x, *y)),
        _ => Err(format!("at '{words}' isn't a column and a row, like at=2,0")),
    }
}

/// A line's keyword in small letters, and the rest; its comment is gone and one space stands between words.
fn parts(line: &str) -> (String, String) {
    let words = line.split('#').next().unwrap_or("").split_whitespace();
    let mut words = words.collect::<Vec<_>>().into_iter();
    (words.next().unwrap_or("").to_ascii_lowercase(), words.collect::<Vec<_>>().join(" "))
}

/// Words without the spaces around `=` and `,`.
fn tidy(text: &str) -> String {
    let without = |text: &str, sign: &str| text.split(sign).map(str::trim).collect::<Vec<_>>().join(sign);
    without(&without(text, "="), ",")
}

/// A turf's line, read.
struct TurfLine {
    line: usize,
    turf: Turf,
    amounts: Vec<f32>,
    immutable: bool,
    shares: Option<u32>,
}

/// A link's line, read.
struct LinkLine {
    line: usize,
    from: u32,
    to: u32,
    flags: u8,
    both: bool,
}

/// What was read so far.
#[derive(Default)]
struct Reader {
    title: String,
    gases: Option<u32>,
    turfs: Vec<TurfLine>,
    links: Vec<LinkLine>,
    places: Vec<Place>,
    calls: Vec<(usize, Call)>,
    faults: Vec<Fault>,
}

/// Reads a board; all faults in the order of their lines.
pub fn read(text: &str) -> Result<Script, Vec<Fault>> {
    let mut reader = Reader::default();
    for (at, line) in text.lines().enumerate() {
        let (line, number) = (line.trim_start_matches('\u{feff}'), at + 1);
        if let Err(message) = reader.line(line, number) {
            reader.fault(number, message);
        }
    }
    reader.whole(text.lines().count().max(1))
}

impl Reader {
    /// Notes a fault.
    fn fault(&mut self, line: usize, message: String) {
        self.faults.push(Fault { line, message });
    }

    /// Reads one line.
    fn line(&mut self, text: &str, line: usize) -> Read<()> {
        let (keyword, rest) = parts(text);
        let tidied = tidy(&rest);
        let mut words = Words::of(&tidied);
        match keyword.as_str() {
            "" => return Ok(()),
            "title" => {
                self.title = rest;
                return Ok(());
            }
            "gases" => self.gases = Some(words.id().map_err(|_| "gases wants a whole number".to_string())?),
            "turf" => self.turf(&mut words, line)?,
            "link" => self.link(&mut words, line, true)?,
            "oneway" => self.link(&mut words, line, false)?,
            _ => {
                let call = call(&keyword, &mut words)?;
                self.calls.push((line, call));
            }
        }
        words.end()
    }

    /// turf ID AMOUNT.. [immutable] [planetary] [disabled] [flags=N] [with=ID] [name=WORD] [at=COLUMN,ROW]
    fn turf(&mut self, words: &mut Words, line: usize) -> Read<()> {
        let (immutable, planetary, disabled) = (words.mark("immutable"), words.mark("planetary"), words.mark("disabled"));
        let flags = words.number("flags", if disabled { 0 } else { ENABLED.into() })?;
        let shares = words.key("with").map(|word| whole("with", word)).transpose()?;
        let name = words.key("name").unwrap_or("").replace('_', " ");
        let at = words.key("at").map(place).transpose()?;
        let id = words.id()?;
        if let Some(first) = self.turfs.iter().find(|other| other.turf.id == id) {
            return Err(format!("turf {id} stands in line {} already", first.line));
        }
        let amounts = words.plain.drain(..).map(|word| real("amount", word, most::AMOUNT)).collect::<Read<Vec<f32>>>()?;
        let flags = u8::try_from(flags).map_err(|_| format!("flags {flags} isn't a number from 0 to 255"))?;
        if shares.is_some() && (immutable || !amounts.is_empty()) {
            return Err("a turf that shares a mixture has no amounts of its own, and isn't immutable by itself".into());
        }
        self.places.push(Place { id, name, at });
        self.turfs.push(TurfLine { line, turf: Turf { id, flags, planetary, mixture: 0, links: vec![] }, amounts, immutable, shares });
        Ok(())
    }

    /// link ID ID [firelock] [flags=N], or oneway with the same words
    fn link(&mut self, words: &mut Words, line: usize, both: bool) -> Read<()> {
        let lock = words.mark("firelock");
        let flags = words.number("flags", if lock { FIRELOCK.into() } else { 0 })?;
        let flags = u8::try_from(flags).map_err(|_| format!("flags {flags} isn't a number from 0 to 255"))?;
        let (from, to) = (words.id()?, words.id()?);
        if from == to {
            return Err(format!("turf {from} is linked to itself"));
        }
        self.links.push(LinkLine { line, from, to, flags, both });
        Ok(())
    }

    /// Puts the board together, once every line is read.
    fn whole(mut self, last: usize) -> Result<Script, Vec<Fault>> {
        if self.turfs.is_empty() && self.faults.is_empty() {
            self.fault(last, "the board has no turf".into());
        }
        let gases = self.gases();
        let mixtures = self.mixtures(gases);
        self.join();
        self.known_ids();
        if !self.faults.is_empty() {
            self.faults.sort_by_key(|fault| fault.line);
            return Err(self.faults);
        }
        let turfs: Vec<Turf> = self.turfs.into_iter().map(|line| line.turf).collect();
        self.places.sort_by_key(|place| place.id);
        Ok(Script { title: self.title, board: Board::new(gases, &mixtures, &turfs), places: self.places, calls: self.calls })
    }

    /// The number of gases: as told, else the most amounts of a turf. A turf with more is a fault.
    fn gases(&mut self) -> u32 {
        let gases = self.gases.unwrap_or(self.turfs.iter().map(|turf| turf.amounts.len() as u32).max().unwrap_or(0).max(1));
        let over: Vec<(usize, usize)> =
            self.turfs.iter().map(|turf| (turf.line, turf.amounts.len())).filter(|&(_, len)| len > gases as usize).collect();
        for (line, len) in over {
            self.fault(line, format!("{len} amounts, and there are {gases} gases"));
        }
        gases
    }

    /// A mixture for each turf that doesn't share another's; amounts that aren't written are 0.
    fn mixtures(&mut self, gases: u32) -> Vec<Mixture> {
        let mut mixtures = Vec::new();
        let mut rows = HashMap::new();
        for line in self.turfs.iter_mut().filter(|line| line.shares.is_none()) {
            line.turf.mixture = mixtures.len() as u32;
            line.amounts.resize(gases.min(most::GASES as u32) as usize, 0.0);
            rows.insert(line.turf.id, line.turf.mixture);
            mixtures.push(Mixture { immutable: line.immutable, amounts: line.amounts.clone() });
        }
        for line in &mut self.turfs {
            let Some(other) = line.shares else { continue };
            match rows.get(&other) {
                Some(&row) => line.turf.mixture = row,
                None => self.faults.push(Fault { line: line.line, message: format!("with={other}: no turf {other} has a mixture of its own") }),
            }
        }
        mixtures
    }

    /// Gives each turf its links, in the order of their lines.
    fn join(&mut self) {
        for link in std::mem::take(&mut self.links) {
            let back = link.both.then_some((link.to, link.from));
            for (from, to) in [(link.from, link.to)].into_iter().chain(back) {
                if let Err(message) = self.join_one(from, to, link.flags) {
                    self.fault(link.line, message);
                    break;
                }
            }
        }
    }

    /// One link of one turf.
    fn join_one(&mut self, from: u32, to: u32, flags: u8) -> Read<()> {
        let known = |id: u32| self.turfs.iter().position(|line| line.turf.id == id).ok_or_else(|| format!("no turf {id}"));
        let (row, _) = (known(from)?, known(to)?);
        let links = &mut self.turfs[row].turf.links;
        if links.iter().any(|link| link.to == to) {
            return Err(format!("turf {from} is linked to {to} already"));
        }
        links.push(Link { to, flags });
        Ok(())
    }

    /// A walk from an id that no turf has is a slip of the pen here, though the library plays it.
    fn known_ids(&mut self) {
        for (line, call) in self.calls.clone() {
            let ids = match call {
                Call::Equalize { hot, .. } => hot,
                Call::Depressurize { id, .. } | Call::PlanetWalk { id, .. } => vec![id],
                Call::Answer { .. } => vec![],
            };
            for id in ids.into_iter().filter(|id| !self.turfs.iter().any(|line| line.turf.id == *id)).collect::<Vec<_>>() {
                self.fault(line, format!("no turf {id}"));
            }
        }
    }
}

/// A call's line, by its keyword.
fn call(keyword: &str, words: &mut Words) -> Read<Call> {
    let limit = |words: &mut Words| words.number("limit", 1000);
    match keyword {
        "equalize" => equalize(words),
        "depressurize" => Ok(Call::Depressurize { limit: limit(words)?, arrows: words.arrows()?, id: words.id()? }),
        "planet" => Ok(Call::PlanetWalk { limit: limit(words)?, id: words.id()? }),
        "answer" => Ok(Call::Answer { limit: limit(words)?, arrows: words.arrows()? }),
        _ => Err(format!("'{keyword}' isn't one of: title, gases, turf, link, oneway, equalize, depressurize, planet, answer")),
    }
}

/// equalize ID.. [turns=N,N..] [threshold=X] [limit=N] [allowance=N]; the ids in any order
fn equalize(words: &mut Words) -> Read<Call> {
    let turns = words.key("turns").map_or(Ok(vec![]), |word| list("turns", word))?;
    let threshold = words.key("threshold").map_or(Ok(0.5), |word| real("threshold", word, f32::MAX))?;
    let (limit, allowance) = (words.number("limit", 1000)?, words.number("allowance", 1_000_000)?);
    let mut hot = words.plain.drain(..).map(|word| list("hot id", word)).collect::<Read<Vec<_>>>()?.concat();
    hot.sort_unstable();
    hot.dedup();
    Ok(Call::Equalize { hot, turns, threshold, limit, allowance })
}
