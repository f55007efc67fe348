//! Judges packets that `beside outcomes` sends: makes each call and looks at every number and every lent cell.
//!
//! Each area lies in memory of its own between pages that can't be touched: it ends where they begin, or begins where they end, so that a
//! read or a write outside faults there. At its other side stand canaries.

use crate::{katmos_depressurize, katmos_equalize, katmos_planet_walk};
use boards::random::Random;
use boards::vectors::{Sink, put};
use boards::{Board, Call, Case, Room, Walk};
use std::alloc::{Layout, alloc, dealloc};
use std::io::Read;
use std::sync::Mutex;

unsafe extern "C" {
    fn mmap(at: *mut u8, length: usize, protection: i32, flags: i32, file: i32, offset: i64) -> *mut u8;
    fn mprotect(at: *mut u8, length: usize, protection: i32) -> i32;
    fn signal(number: i32, handler: extern "C" fn(i32)) -> usize;
    fn _exit(status: i32) -> !;
}

/// More than an area is long, and how much can't be touched before and behind it.
const ROOM: usize = 1 << 21;
const WALL: usize = 1 << 16;
const CANARIES: usize = 64;
const CANARY: u8 = 0xa5;

/// What is lent, and where in this list stand those areas that a call may change.
const NAMES: [&str; 15] = [
    "ids",
    "flags",
    "planetary",
    "mixtures",
    "starts",
    "neighbours",
    "link flags",
    "immutable",
    "amounts",
    "hot",
    "turns",
    "events",
    "words",
    "floats",
    "answer",
];
const AMOUNTS: usize = 8;
const HOT: usize = 9;
const EVENTS: usize = 11;
const WORDS: usize = 12;
const FLOATS: usize = 13;
const ANSWER: usize = 14;

/// How an area is placed: up to the wall behind it, from the wall before it on, or on the heap just as long as it is, for a program that
/// watches the heap.
#[derive(Clone, Copy, PartialEq)]
pub enum Place {
    Last,
    First,
    Heap,
}

/// One area.
struct Area {
    room: *mut u8,
    place: Place,
    at: *mut u8,
    length: usize,
}

/// Memory between two walls.
fn walled() -> *mut u8 {
    // SAFETY: fresh pages (private, of no file), of which all but the walls are made readable and writable.
    unsafe {
        let all = mmap(std::ptr::null_mut(), ROOM + 2 * WALL, 0, 0x22, -1, 0);
        assert!(all as isize != -1 && mprotect(all.add(WALL), ROOM, 3) == 0, "pages");
        all.add(WALL)
    }
}

impl Area {
    fn new() -> Self {
        let room = walled();
        Self { room, place: Place::First, at: room, length: 0 }
    }
    /// The layout of an area on the heap.
    fn layout(&self) -> Layout {
        Layout::from_size_align(self.length.max(1), 4).expect("a layout")
    }
    /// Lays these bytes down, and canaries at the side without a wall.
    fn lend(&mut self, place: Place, bytes: &[u8]) {
        assert!(bytes.len() + CANARIES <= ROOM);
        // SAFETY: what was allocated is given back with the layout it has; an area up to the wall lies in its room.
        unsafe {
            if self.place == Place::Heap {
                dealloc(self.at, self.layout());
            }
            (self.place, self.length) = (place, bytes.len());
            self.at = match place {
                Place::Last => self.room.add(ROOM - self.length),
                Place::First => self.room,
                Place::Heap => alloc(self.layout()),
            };
            self.at.copy_from(bytes.as_ptr(), self.length);
        }
        self.canaries().fill(CANARY);
    }
    fn held(&mut self) -> &mut [u8] {
        // SAFETY: so many bytes were laid down there.
        unsafe { std::slice::from_raw_parts_mut(self.at, self.length) }
    }
    fn canaries(&mut self) -> &mut [u8] {
        // SAFETY: the room is longer than area and canaries.
        unsafe {
            match self.place {
                Place::Last => std::slice::from_raw_parts_mut(self.at.sub(CANARIES), CANARIES),
                Place::First => std::slice::from_raw_parts_mut(self.at.add(self.length), CANARIES),
                Place::Heap => &mut [],
            }
        }
    }
    /// What differs from two parts that are due one behind the other.
    fn differs(&mut self, due: [&[u8]; 2]) -> Option<String> {
        let (held, first) = (self.held(), due[0].len());
        if held.len() != first + due[1].len() || held[..first] != *due[0] || held[first..] != *due[1] {
            let due = due.concat();
            let at = held.iter().zip(&due).position(|(held, due)| held != due).unwrap_or(due.len().min(held.len()));
            let from = |bytes: &[u8]| format!("{:02x?}", bytes[at..].iter().take(16).collect::<Vec<_>>());
            return Some(format!("from byte {at} on {} instead of {}", from(held), from(&due)));
        }
        self.canaries().iter().any(|&byte| byte != CANARY).then(|| "a canary died".to_string())
    }
}

/// The rest of a packet.
struct Packet<'a>(&'a [u8]);

impl<'a> Packet<'a> {
    fn take(&mut self, length: usize) -> &'a [u8] {
        let (taken, rest) = self.0.split_at(length);
        self.0 = rest;
        taken
    }
    fn number(&mut self) -> u32 {
        u32::from_le_bytes(self.take(4).try_into().expect("four bytes"))
    }
    fn list(&mut self) -> &'a [u8] {
        let length = self.number() as usize;
        self.take(length)
    }
}

/// What a call is asked beside its areas.
struct Asked {
    call: u32,
    gases: u32,
    words: [u32; 3],
}

/// A packet as read: what the case is called, what is asked, what the areas hold before, and of each the two parts that are due afterwards.
struct Sent<'a> {
    label: &'a str,
    asked: Asked,
    lent: [&'a [u8]; 15],
    due: [[&'a [u8]; 2]; 15],
}

/// What `Case::lend` puts into events, words and floats, and zeros.
struct Supply {
    garbage: [Vec<u8>; 3],
    zeros: Vec<u8>,
}

impl Supply {
    fn new() -> Self {
        let mut case = Case::new(Board::default(), Call::PlanetWalk(Walk::default()), 0);
        case.lend(Room { events: ROOM / 2, words: ROOM / 8, floats: ROOM / 8 });
        let words = case.words.iter().flat_map(|word| word.to_le_bytes()).collect();
        let floats = case.floats.iter().flat_map(|float| float.to_bits().to_le_bytes()).collect();
        Self { garbage: [case.events, words, floats], zeros: vec![0; ROOM / 2] }
    }

    /// Reads a packet, in the order of `boards::vectors`.
    fn read<'a>(&'a self, packet: &'a [u8]) -> Sent<'a> {
        let mut packet = Packet(packet);
        let label = std::str::from_utf8(packet.list()).expect("a name");
        let call = packet.number();
        let mut lent: [&[u8]; 15] = [&[]; 15];
        lent[..AMOUNTS].fill_with(|| packet.list());
        let gases = packet.number();
        lent[AMOUNTS] = packet.list();
        for (area, width) in [(EVENTS, 1), (WORDS, 4), (FLOATS, 4)] {
            lent[area] = &self.garbage[area - EVENTS][..width * packet.number() as usize];
        }
        if call == 1 {
            lent[HOT..EVENTS].fill_with(|| packet.list());
        }
        let words = if call == 3 { [packet.number(), packet.number(), 0] } else { [0; 3].map(|_| packet.number()) };
        let (answer, amounts, written) = (packet.list(), packet.list(), packet.list());
        lent[ANSWER] = &self.garbage[1][..answer.len()];
        let mut due = lent.map(|bytes| [bytes, &[]]);
        (due[AMOUNTS], due[ANSWER]) = ([amounts, &[]], [answer, &[]]);
        due[EVENTS] = [written, &lent[EVENTS][written.len()..]];
        for area in [WORDS, FLOATS] {
            let zeros = 4 * packet.number() as usize;
            due[area] = [&self.zeros[..zeros], &lent[area][zeros..]];
        }
        Sent { label, asked: Asked { call, gases, words }, lent, due }
    }
}

/// Makes the call; `more` is added to the number of hot ids.
fn make(asked: &Asked, a: &[Area; 15], more: usize) -> u32 {
    macro_rules! lent {
        ($function:ident $(, $word:expr)*) => {
            // SAFETY: every pointer goes with the length of its area, but for the hot ids where more are said to be there.
            unsafe {
                $function(
                    a[0].at.cast(), a[0].length / 4, a[1].at, a[1].length, a[2].at, a[2].length, a[3].at.cast(), a[3].length / 4,
                    a[4].at.cast(), a[4].length / 4, a[5].at.cast(), a[5].length / 4, a[6].at, a[6].length, a[7].at, a[7].length,
                    asked.gases, a[AMOUNTS].at.cast(), a[AMOUNTS].length / 4 $(, $word)*, a[EVENTS].at, a[EVENTS].length,
                    a[WORDS].at.cast(), a[WORDS].length / 4, a[FLOATS].at.cast(), a[FLOATS].length / 4, a[ANSWER].at.cast(),
                )
            }
        };
    }
    let [first, second, third] = asked.words;
    let (hot, turns) = (&a[HOT], &a[HOT + 1]);
    match asked.call {
        1 => lent!(katmos_equalize, hot.at.cast(), hot.length / 4 + more, turns.at.cast(), turns.length / 4, f32::from_bits(first), second, third),
        2 => lent!(katmos_depressurize, first, second, third),
        _ => lent!(katmos_planet_walk, first, second),
    }
}

/// What the case in hand is called, for the line that a fault leaves.
static LABEL: Mutex<String> = Mutex::new(String::new());

extern "C" fn fault(_: i32) {
    println!("a fault: {}", LABEL.try_lock().map(|label| label.clone()).unwrap_or_default());
    // SAFETY: nothing is left to do.
    unsafe { _exit(1) }
}

/// The first area that differs from what is due.
fn differs(areas: &mut [Area; 15], due: &[[&[u8]; 2]; 15]) -> Option<String> {
    areas.iter_mut().zip(due).zip(NAMES).find_map(|((area, due), name)| Some(format!("{name}: {}", area.differs(*due)?)))
}

/// Alters a bit of an area or of its canaries: its name.
fn alter(areas: &mut [Area; 15], random: &mut Random) -> &'static str {
    let which = random.within(0, 14);
    let area = &mut areas[which];
    let (length, canaries) = (area.length, area.canaries().len());
    if length + canaries == 0 {
        return alter(areas, random);
    }
    let at = random.within(0, length + canaries - 1);
    *if at < length { &mut area.held()[at] } else { &mut area.canaries()[at - length] } ^= 1 << random.below(8);
    NAMES[which]
}

/// The areas, and what was seen so far.
pub struct Judge {
    areas: [Area; 15],
    place: Option<Place>,
    random: Random,
    boards: u64,
    refused: [u64; 7],
    altered: u64,
}

impl Judge {
    /// With a place for every area, or one of the two at a wall by chance for each case.
    pub fn new(place: Option<Place>) -> Self {
        // SAFETY: the handler only prints a line and ends the run.
        unsafe { signal(11, fault) };
        Self { areas: std::array::from_fn(|_| Area::new()), place, random: Random::new(1), boards: 0, refused: [0; 7], altered: 0 }
    }

    /// Lends what was sent and makes the call, in which so many more hot ids are said to be there: the number returned.
    fn call(&mut self, sent: &Sent, more: usize) -> u32 {
        sent.label.clone_into(&mut LABEL.lock().expect("no panic"));
        let place = self.place.unwrap_or(self.random.pick(&[Place::Last, Place::First]));
        self.areas.iter_mut().zip(sent.lent).for_each(|(area, bytes)| area.lend(place, bytes));
        make(&sent.asked, &self.areas, more)
    }

    /// Says what differs; of one case in eight a bit is altered afterwards, which must be noticed.
    fn judge(&mut self, sent: &Sent) -> Result<(), String> {
        let number = self.call(sent, 0);
        if number.to_le_bytes() != sent.due[ANSWER][0][..4] {
            return Err(format!("{}: {number} was returned", sent.label));
        }
        if let Some(found) = differs(&mut self.areas, &sent.due) {
            return Err(format!("{}: {found}", sent.label));
        }
        self.boards += 1;
        if let Some(count) = number.checked_sub(1) {
            self.refused[count as usize] += 1;
        }
        if self.random.once_in(8) {
            let name = alter(&mut self.areas, &mut self.random);
            self.altered += 1;
            differs(&mut self.areas, &sent.due).ok_or(format!("{}: a bit of {name} was altered, and not noticed", sent.label))?;
        }
        Ok(())
    }

    /// Judges a stream of packets up to its end.
    pub fn all(mut self, mut from: impl Read) -> Result<String, String> {
        let (supply, mut packet) = (Supply::new(), Vec::new());
        loop {
            let mut length = [0; 4];
            from.read_exact(&mut length).map_err(|_| "the stream was cut off")?;
            if length == [0; 4] {
                break;
            }
            packet.resize(u32::from_le_bytes(length) as usize, 0);
            from.read_exact(&mut packet).map_err(|_| "the stream was cut off")?;
            self.judge(&supply.read(&packet))?;
        }
        let Self { boards, refused, altered, .. } = self;
        Ok(format!("{boards} boards, refusals 1 to 7 {refused:?}, {altered} altered bits noticed, no difference"))
    }
}

/// Steps out of an area, which must fault at a wall: behind the hot ids the library does, told of one more than there is; before them it is
/// done here. On the heap both are done, for whoever watches it.
pub fn overstep(place: Place) {
    let (mut judge, mut packet) = (Judge::new(Some(place)), Vec::new());
    let row = &boards::paper::rows()[0];
    packet.bytes(b"a step over a wall");
    put(&mut packet, &row.case, &row.outcome());
    let number = judge.call(&Supply::new().read(&packet), usize::from(place != Place::First));
    // SAFETY: none; that is what is shown.
    let byte = unsafe { judge.areas[HOT].at.sub(1).read_volatile() };
    println!("no fault: {number} was returned, {byte} was read");
}
