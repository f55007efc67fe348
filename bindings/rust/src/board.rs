//! The tables of a board, and the room that its calls need.

use crate::most;

/// A turf's flags where it takes part.
pub const ENABLED: u8 = 2;
/// A link's flags where it has a firelock.
pub const FIRELOCK: u8 = 2;

/// The tables as the library reads them. They may hold anything: a call refuses what is ill-formed.
#[derive(Clone, Debug, Default, PartialEq)]
pub struct Tables {
    /// A turf's id; row by row strictly ascending.
    pub ids: Vec<u32>,
    /// Bit 0 or 1: the turf is enabled.
    pub flags: Vec<u8>,
    /// Not 0: a planetary turf.
    pub planetary: Vec<u8>,
    /// The row of the turf's mixture; turfs may share one.
    pub mixtures: Vec<u32>,
    /// Where each turf's links start, and the number of links at the end.
    pub starts: Vec<u32>,
    /// The row of each link's neighbour.
    pub neighbours: Vec<u32>,
    /// Bit 1: a firelock.
    pub link_flags: Vec<u8>,
    /// Not 0: the mixture neither loses nor gains.
    pub immutable: Vec<u8>,
    /// How many gases a mixture has.
    pub gases: u32,
    /// So many amounts for each mixture.
    pub amounts: Vec<f32>,
}

/// A link to the turf with this id.
#[derive(Clone, Copy, Debug, PartialEq)]
pub struct Link {
    pub to: u32,
    pub flags: u8,
}

impl Link {
    /// A plain link.
    pub fn to(to: u32) -> Link {
        Link { to, flags: 0 }
    }

    /// A link with a firelock.
    pub fn locked(to: u32) -> Link {
        Link { to, flags: FIRELOCK }
    }
}

/// A turf, with its links in the order in which they are walked.
#[derive(Clone, Debug, PartialEq)]
pub struct Turf {
    pub id: u32,
    pub flags: u8,
    pub planetary: bool,
    pub mixture: u32,
    pub links: Vec<Link>,
}

impl Turf {
    /// An enabled turf, not planetary.
    pub fn new(id: u32, mixture: u32, links: &[Link]) -> Turf {
        Turf { id, flags: ENABLED, planetary: false, mixture, links: links.to_vec() }
    }
}

/// A mixture's amounts, one for each gas.
#[derive(Clone, Debug, PartialEq)]
pub struct Mixture {
    pub immutable: bool,
    pub amounts: Vec<f32>,
}

impl Mixture {
    /// A changeable mixture.
    pub fn of(amounts: &[f32]) -> Mixture {
        Mixture { immutable: false, amounts: amounts.to_vec() }
    }

    /// Space: immutable and empty.
    pub fn space(gases: usize) -> Mixture {
        Mixture { immutable: true, amounts: vec![0.0; gases] }
    }
}

/// The elements that a call needs: event bytes, words and floats of scratch.
#[derive(Clone, Copy, Debug, PartialEq)]
pub struct Room {
    pub events: usize,
    pub words: usize,
    pub floats: usize,
}

/// A board: its tables, and the scratch of its calls, kept from one to the next.
#[derive(Clone, Debug, Default)]
pub struct Board {
    pub tables: Tables,
    pub(crate) words: Vec<u32>,
    pub(crate) floats: Vec<f32>,
}

impl From<Tables> for Board {
    fn from(tables: Tables) -> Board {
        Board { tables, ..Board::default() }
    }
}

impl Board {
    /// A board of these turfs, in any order. A link to an id that no turf has gets a row that isn't there, which calls refuse.
    pub fn new(gases: u32, mixtures: &[Mixture], turfs: &[Turf]) -> Board {
        let mut turfs: Vec<&Turf> = turfs.iter().collect();
        turfs.sort_by_key(|turf| turf.id);
        let ids: Vec<u32> = turfs.iter().map(|turf| turf.id).collect();
        let mut tables = Tables { gases, starts: vec![0], ..Tables::default() };
        for turf in turfs {
            tables.flags.push(turf.flags);
            tables.planetary.push(turf.planetary.into());
            tables.mixtures.push(turf.mixture);
            tables.neighbours.extend(turf.links.iter().map(|link| ids.binary_search(&link.to).unwrap_or(ids.len()) as u32));
            tables.link_flags.extend(turf.links.iter().map(|link| link.flags));
            tables.starts.push(tables.neighbours.len() as u32);
        }
        tables.immutable = mixtures.iter().map(|mixture| mixture.immutable.into()).collect();
        tables.amounts = mixtures.iter().flat_map(|mixture| mixture.amounts.iter().copied()).collect();
        Board::from(Tables { ids, ..tables })
    }

    /// The room of equalize.
    pub fn equalize_room(&self) -> Room {
        let (n, e, _) = self.sizes();
        self.room(20 * e + 16 * n)
    }

    /// The room of depressurize.
    pub fn depressurize_room(&self) -> Room {
        self.room(84 * self.sizes().0)
    }

    /// The room of the planet walk.
    pub fn planet_walk_room(&self) -> Room {
        self.room(12 * self.sizes().0)
    }

    /// Turfs, links and mixtures, at most the limits: a larger board is refused before its room is looked at.
    fn sizes(&self) -> (usize, usize, usize) {
        let t = &self.tables;
        (t.ids.len().min(most::TURFS), t.neighbours.len().min(most::LINKS), t.immutable.len().min(most::MIXTURES))
    }

    /// The room of a call with so many event bytes.
    fn room(&self, events: usize) -> Room {
        let (n, e, m) = self.sizes();
        Room { events, words: 16 * n + 4 * e + 2 * m + 16, floats: 4 * n + 2 * e }
    }

    /// The amounts of a turf's mixture; `None` where there is no such turf or its row isn't there.
    pub fn amounts_of(&self, id: u32) -> Option<&[f32]> {
        let (t, gases) = (&self.tables, self.tables.gases as usize);
        let mixture = *t.mixtures.get(t.ids.iter().position(|&at| at == id)?)? as usize;
        t.amounts.get(mixture.checked_mul(gases)?..)?.get(..gases)
    }

    /// The sum of those amounts, from the left.
    pub fn total_of(&self, id: u32) -> Option<f32> {
        Some(self.amounts_of(id)?.iter().fold(0.0, |sum, amount| sum + amount))
    }
}
