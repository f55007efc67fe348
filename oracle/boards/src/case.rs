//! A call with all that it is lent: tables, what is asked, areas.

/// The tables, by turf row, by link and by mixture row. What is here may be ill-formed: then a call refuses it.
#[derive(Clone, Debug, Default, PartialEq)]
pub struct Board {
    pub ids: Vec<u32>,
    pub flags: Vec<u8>,
    pub planetary: Vec<u8>,
    pub mixtures: Vec<u32>,
    pub starts: Vec<u32>,
    pub neighbours: Vec<u32>,
    pub link_flags: Vec<u8>,
    pub immutable: Vec<u8>,
    pub gases: u32,
    pub amounts: Vec<f32>,
}

impl Board {
    /// The links of a row, in order. Only for a board that is well-formed.
    pub fn links(&self, row: usize) -> std::ops::Range<usize> {
        self.starts[row] as usize..self.starts[row + 1] as usize
    }
    /// Whether the row's mixture can't change.
    pub fn is_immutable(&self, row: usize) -> bool {
        self.immutable[self.mixtures[row] as usize] != 0
    }
    /// SIMULATION_ANY: bit 0 or 1.
    pub fn is_enabled(&self, row: usize) -> bool {
        self.flags[row] & 3 != 0
    }
}

/// What equalize is lent beside the board.
#[derive(Clone, Debug, Default, PartialEq)]
pub struct Equalize {
    pub hot: Vec<u32>,
    pub turns: Vec<u32>,
    pub threshold: f32,
    pub limit: u32,
    pub allowance: u32,
}

/// What the planet walk is lent beside the board.
#[derive(Clone, Debug, Default, PartialEq)]
pub struct Walk {
    pub id: u32,
    pub limit: u32,
}

/// What depressurize is lent beside the board. With arrows 0 those of kind 7 run from a turf to itself, as in the text; else towards space.
#[derive(Clone, Debug, Default, PartialEq)]
pub struct Breach {
    pub id: u32,
    pub limit: u32,
    pub arrows: u32,
}

impl Breach {
    /// Whether its arrows point towards space.
    pub fn is_to_space(&self) -> bool {
        self.arrows != 0
    }
}

/// With the text's arrows.
impl From<Walk> for Breach {
    fn from(Walk { id, limit }: Walk) -> Self {
        Self { id, limit, arrows: 0 }
    }
}

/// Numbers that ask for arrows towards space, as all but 0 do.
const TO_SPACE: [u32; 6] = [u32::MAX, 1, 2, 0x100, 0x8000_0000, 0x1_0000];

#[derive(Clone, Debug, PartialEq)]
pub enum Call {
    Equalize(Equalize),
    Depressurize(Breach),
    PlanetWalk(Walk),
}

impl Call {
    /// Which of the three, as the vectors number them.
    pub fn number(&self) -> u32 {
        match self {
            Call::Equalize(_) => 1,
            Call::Depressurize(_) => 2,
            Call::PlanetWalk(_) => 3,
        }
    }
}

/// A call with everything that it is lent: the board, what it asks, the event area and the scratch with what they hold before.
#[derive(Clone, Debug, PartialEq)]
pub struct Case {
    pub board: Board,
    pub call: Call,
    pub events: Vec<u8>,
    pub words: Vec<u32>,
    pub floats: Vec<f32>,
}

/// The room that a call needs: event bytes, scratch words, scratch floats.
#[derive(Clone, Copy, Debug, PartialEq)]
pub struct Room {
    pub events: usize,
    pub words: usize,
    pub floats: usize,
}

impl Case {
    pub fn room(&self) -> Room {
        let (turfs, links, mixtures) = (self.board.ids.len(), self.board.neighbours.len(), self.board.immutable.len());
        let events = match self.call {
            Call::Equalize(_) => 20 * links + 16 * turfs,
            Call::Depressurize(_) => 84 * turfs,
            Call::PlanetWalk(_) => 12 * turfs,
        };
        Room { events, words: 16 * turfs + 4 * links + 2 * mixtures + 16, floats: 4 * turfs + 2 * links }
    }

    /// A case that lends just the room, or some more, holding garbage that a rule makes.
    pub fn new(board: Board, call: Call, over: usize) -> Self {
        let mut case = Self { board, call, events: Vec::new(), words: Vec::new(), floats: Vec::new() };
        let room = case.room();
        case.lend(Room { events: room.events + over, words: room.words + over, floats: room.floats + over });
        case
    }

    /// Lends areas of these lengths. Byte i of the events is i * 31 + 7 mod 256; word i is i * 2654435761 + 1 mod 2^32; float i has
    /// the bits 0x3f000000 + i.
    pub fn lend(&mut self, room: Room) {
        self.events = (0..room.events).map(|i| (i * 31 + 7) as u8).collect();
        self.words = (0..room.words as u32).map(|i| i.wrapping_mul(2_654_435_761).wrapping_add(1)).collect();
        self.floats = (0..room.floats as u32).map(|i| f32::from_bits(0x3f00_0000 + i)).collect();
    }

    /// The same case with arrows towards space, if it is depressurize's; which number asks for them is decided by the board's size.
    pub fn to_space(&self) -> Option<Self> {
        let Call::Depressurize(breach) = &self.call else { return None };
        let arrows = TO_SPACE[(self.board.ids.len() + self.board.neighbours.len()) % TO_SPACE.len()];
        Some(Self { call: Call::Depressurize(Breach { arrows, ..breach.clone() }), ..self.clone() })
    }
}

/// Tests a case, and the same with arrows towards space, if it is depressurize's; each with what it is called.
pub fn with_both_arrows(label: &str, case: &Case, test: &mut impl FnMut(&str, &Case)) {
    test(label, case);
    case.to_space().iter().for_each(|other| test(&format!("{label}, arrows to space"), other));
}
