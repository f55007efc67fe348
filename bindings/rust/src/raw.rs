//! The C functions of include/katmos.h, lent slices. The only `unsafe` of this crate: every pointer below goes with the length of its slice.

use crate::board::Tables;

/// A call's declaration: the tables that every call is lent, its own words, and the areas at the end.
macro_rules! calls {
    ($(fn $name:ident($($word:ident: $type:ty),*);)*) => {
        extern "C" {
            $(fn $name(
                ids: *const u32, ids_len: usize, flags: *const u8, flags_len: usize, planetary: *const u8, planetary_len: usize,
                mixtures: *const u32, mixtures_len: usize, starts: *const u32, starts_len: usize, neighbours: *const u32, neighbours_len: usize,
                link_flags: *const u8, link_flags_len: usize, immutable: *const u8, immutable_len: usize, gases: u32,
                $($word: $type,)*
                events: *mut u8, events_len: usize, words: *mut u32, words_len: usize, floats: *mut f32, floats_len: usize, answer: *mut u32,
            ) -> u32;)*
        }
    };
}

calls! {
    fn katmos_equalize(amounts: *mut f32, amounts_len: usize, hot: *const u32, hot_len: usize, turns: *const u32, turns_len: usize, threshold: f32, limit: u32, allowance: u32);
    fn katmos_depressurize(amounts: *mut f32, amounts_len: usize, id: u32, limit: u32, arrows: u32);
    fn katmos_planet_walk(amounts: *const f32, amounts_len: usize, id: u32, limit: u32);
}

extern "C" {
    fn katmos_read_event(events: *const u8, events_len: usize, offset: u32, answer: *mut u32) -> u32;
    fn katmos_write_event(kind: u32, f0: u32, f1: u32, f2: u32, f3: u32, events: *mut u8, events_len: usize, offset: u32, answer: *mut u32) -> u32;
}

/// The areas that a call is lent beside the tables.
pub struct Areas<'a> {
    pub events: &'a mut [u8],
    pub words: &'a mut [u32],
    pub floats: &'a mut [f32],
}

/// Calls a function with the tables, its own words, the areas and room for an answer of so many numbers; gives the answer.
macro_rules! call {
    ($name:ident, $size:literal, $t:expr, $areas:expr, $($word:expr),*) => {{
        let (t, areas, mut answer) = ($t, $areas, [0u32; $size]);
        // SAFETY: each pointer is a slice's, followed by that slice's length; the slices are distinct borrows, live throughout the call; the
        // answer has the places that this call writes. What the library touches it is lent: that is proved.
        unsafe {
            $name(
                t.ids.as_ptr(), t.ids.len(), t.flags.as_ptr(), t.flags.len(), t.planetary.as_ptr(), t.planetary.len(),
                t.mixtures.as_ptr(), t.mixtures.len(), t.starts.as_ptr(), t.starts.len(), t.neighbours.as_ptr(), t.neighbours.len(),
                t.link_flags.as_ptr(), t.link_flags.len(), t.immutable.as_ptr(), t.immutable.len(), t.gases,
                $($word,)*
                areas.events.as_mut_ptr(), areas.events.len(), areas.words.as_mut_ptr(), areas.words.len(),
                areas.floats.as_mut_ptr(), areas.floats.len(), answer.as_mut_ptr(),
            )
        };
        answer
    }};
}

/// `katmos_equalize`: number, cancelled, processed, tests, zones, apart, bytes.
pub fn equalize(t: &mut Tables, hot: &[u32], turns: &[u32], (threshold, limit, allowance): (f32, u32, u32), areas: Areas) -> [u32; 7] {
    let (amounts, len) = (t.amounts.as_mut_ptr(), t.amounts.len());
    call!(katmos_equalize, 7, t, areas, amounts, len, hot.as_ptr(), hot.len(), turns.as_ptr(), turns.len(), threshold, limit, allowance)
}

/// `katmos_depressurize`: number, outcome, bytes.
pub fn depressurize(t: &mut Tables, id: u32, limit: u32, arrows: u32, areas: Areas) -> [u32; 3] {
    let (amounts, len) = (t.amounts.as_mut_ptr(), t.amounts.len());
    call!(katmos_depressurize, 3, t, areas, amounts, len, id, limit, arrows)
}

/// `katmos_planet_walk`: number, bytes.
pub fn planet_walk(t: &Tables, id: u32, limit: u32, areas: Areas) -> [u32; 2] {
    call!(katmos_planet_walk, 2, t, areas, t.amounts.as_ptr(), t.amounts.len(), id, limit)
}

/// `katmos_read_event`: number, kind, next offset, four fields.
pub fn read_event(area: &[u8], offset: u32) -> [u32; 7] {
    let mut answer = [0; 7];
    // SAFETY: the area with its length; the answer has seven places.
    unsafe { katmos_read_event(area.as_ptr(), area.len(), offset, answer.as_mut_ptr()) };
    answer
}

/// `katmos_write_event`: number, next offset.
pub fn write_event(kind: u32, [a, b, c, d]: [u32; 4], area: &mut [u8], offset: u32) -> [u32; 2] {
    let mut answer = [0; 2];
    // SAFETY: the area with its length; the answer has two places.
    unsafe { katmos_write_event(kind, a, b, c, d, area.as_mut_ptr(), area.len(), offset, answer.as_mut_ptr()) };
    answer
}
