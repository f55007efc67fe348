//! The proved library beside the Rust text: the same cases, every number and every lent cell.

use boards::events::{BAD, Event, read};
use boards::families::cases;
use boards::random::Random;
use boards::{Case, refusal::refusal};
use library::judge::{Judge, Place, overstep};
use library::{bench, outcome, payloads, picture, read_event, stack, write_event};
use std::io::{BufReader, stdin};
use std::time::{Duration, Instant};

const HELP: &str = "library judge [PLACE]        what `beside outcomes` sends, every area at a wall; PLACE: last, first or heap
library overstep PLACE       a step out of an area, which must fault at a wall
library walks EACH SEED      depressurize, with both settings of its arrows, and the planet walk on EACH boards a family, against the text
library equalize EACH SEED   equalize on EACH boards a family, with and without turns, against the text
library paper                document 01's boards
library events COUNT SEED    the reader and the writer on COUNT areas, against the independent ones
library payloads EACH SEED   every fault, alone and with another, EACH times, and EACH boards a family, gas and scratch floats being NaNs: every bit of them
library bench SECONDS [NAME] how long equalize takes, the text's and the library's by turns, SECONDS a board at least; boards with NAME in their name
library places SECONDS [NAME] how much longer the library's takes with the scratch at other places within a page of memory, by 16 bytes: the best and the worst
library parts SECONDS        what of the library's time is for refusals and for clearing
library hubs SECONDS         what of it is for refusals on hubs of 64 to 4,095 links
library cost MILLISECONDS PICTURE   how long the library's takes on growing boards, as a table and as a picture (SVG)
library stack                how much stack the deepest board takes; that 2 MiB are enough and half of what it takes isn't";

/// What a comparison came to.
#[derive(Default)]
struct Compared {
    boards: u64,
    refused: [u64; 7],
}

impl Compared {
    /// Compares one case; the first difference ends the run.
    fn test(&mut self, label: &str, case: &Case) {
        let (ours, due) = (outcome(case), filled::play::outcome(case));
        if ours.as_ref() != Ok(&due) {
            println!("{label} differs\nboard: {case:?}\nlibrary: {ours:?}\ntext: {due:?}");
            std::process::exit(1);
        }
        self.boards += 1;
        if let Some(count) = refusal(case).checked_sub(1) {
            self.refused[count as usize] += 1;
        }
    }
}

/// Boards of every family by these calls.
fn compare(calls: &[u32], each: u64, seed: u64) {
    for &call in calls {
        let mut compared = Compared::default();
        cases(call, each, seed, &mut |label, case| compared.test(label, case));
        let name = ["equalize", "depressurize", "planet walk"][call as usize - 1];
        println!("{name}: {} boards, refusals 1 to 7 {:?}, no difference", compared.boards, compared.refused);
    }
}

/// Document 01's boards.
fn paper() {
    let mut count = 0;
    for row in boards::paper::rows().into_iter() {
        assert_eq!(outcome(&row.case), Ok(row.outcome()), "{}", row.name);
        count += 1;
    }
    println!("paper: {count} boards as the paper has them");
}

/// What standard input sends.
fn judge(place: Option<Place>) {
    let said = Judge::new(place).all(BufReader::with_capacity(1 << 16, stdin().lock()));
    println!("{}", said.as_ref().unwrap_or_else(|found| found));
    if said.is_err() {
        std::process::exit(1);
    }
}

/// An area of records, some of them damaged or torn.
fn area(random: &mut Random) -> Vec<u8> {
    let mut bytes = Vec::new();
    for _ in 0..random.below(4) {
        let (id, amount) = (random.next() as u32, f32::from_bits(random.next() as u32));
        let (from, to) = (random.next() as u32, random.next() as u32);
        bytes.extend(
            match random.below(8) {
                kind @ 0..=1 => Event::wanted(kind as u16 + 1, id),
                2 => Event::Pressure { zone: id, amount, from, to },
                3 => Event::Firelock { id, neighbour: from },
                4 => Event::Target { id, target: to },
                5 => Event::HighPressure { id },
                6 => Event::Difference { id, amount, from, to },
                _ => Event::FloorRip { id, amount },
            }
            .bytes(),
        );
    }
    if random.once_in(2) && !bytes.is_empty() {
        let (at, byte) = (random.below(bytes.len() as u64) as usize, random.next() as u8);
        bytes[at] = random.pick(&[0, 1, 8, 12, 20, 255, byte]);
    }
    bytes.truncate(bytes.len() - random.below(3).min(bytes.len() as u64) as usize);
    bytes
}

fn events(count: u64, seed: u64) {
    let mut random = Random::new(seed);
    let mut kinds = [0; 9];
    for _ in 0..count {
        let area = area(&mut random);
        let offset = random.pick(&[0, 8, 12, 20, 24, area.len() as u32, area.len() as u32 + 1, u32::MAX]);
        let due = match read(&area, offset as usize) {
            Ok(None) => vec![0; 7],
            Ok(Some(record)) => {
                let mut numbers = vec![0, u32::from(record.kind), record.next as u32];
                numbers.extend(record.fields);
                numbers.resize(7, 0);
                numbers
            }
            Err(_) => vec![BAD, 0, 0, 0, 0, 0, 0],
        };
        kinds[due[1] as usize] += 1;
        assert_eq!(read_event(&area, offset), Some(due), "{area:?} at {offset}");
        write(&mut random, &area, offset);
    }
    println!("events: {count} areas read and written, kinds read 0 to 8 {kinds:?}, no difference");
}

/// The writer tests 8 (by kind), 5, then 7.
fn write(random: &mut Random, area: &[u8], offset: u32) {
    let kind = random.pick(&[0, 1, 2, 3, 4, 5, 6, 7, 8, 9, u32::MAX]);
    let fields = [0; 4].map(|_: u32| random.next() as u32);
    let [a, b, c, d] = fields;
    let amount = f32::from_bits(b);
    let event = match kind {
        1 | 2 => Some(Event::wanted(kind as u16, a)),
        3 => Some(Event::Pressure { zone: a, amount, from: c, to: d }),
        4 => Some(Event::Firelock { id: a, neighbour: b }),
        5 => Some(Event::Target { id: a, target: b }),
        6 => Some(Event::HighPressure { id: a }),
        7 => Some(Event::Difference { id: a, amount, from: c, to: d }),
        8 => Some(Event::FloorRip { id: a, amount }),
        _ => None,
    };
    let (mut after, mut answer) = (area.to_vec(), vec![0, 0]);
    match event.map(|event| event.bytes()) {
        None => answer[0] = BAD,
        Some(_) if matches!(kind, 3 | 7 | 8) && !amount.is_finite() => answer[0] = 5,
        Some(bytes) => match after.get_mut(offset as usize..).and_then(|rest| rest.get_mut(..bytes.len())) {
            None => answer[0] = 7,
            Some(place) => {
                place.copy_from_slice(&bytes);
                answer[1] = offset + bytes.len() as u32;
            }
        },
    }
    assert_eq!(write_event(kind, fields, area, offset), Some((answer, after)), "{kind} {fields:?} {area:?} at {offset}");
}

fn main() {
    let words: Vec<String> = std::env::args().skip(1).collect();
    let number = |at: usize| words.get(at).and_then(|word| word.parse::<u64>().ok());
    let place = match words.get(1).map(String::as_str) {
        Some("last") => Some(Place::Last),
        Some("first") => Some(Place::First),
        Some("heap") => Some(Place::Heap),
        _ => None,
    };
    let begun = Instant::now();
    match (words.first().map_or("", String::as_str), number(1), number(2)) {
        ("judge", None, None) => judge(place),
        ("overstep", None, None) => overstep(place.unwrap_or(Place::Last)),
        ("walks", Some(each), Some(seed)) => compare(&[2, 3], each, seed),
        ("equalize", Some(each), Some(seed)) => compare(&[1], each, seed),
        ("paper", None, None) => paper(),
        ("events", Some(count), Some(seed)) => events(count, seed),
        ("bench", Some(seconds), None) => bench::table(Duration::from_secs(seconds), words.get(2).map_or("", String::as_str)),
        ("places", Some(seconds), None) => bench::places(Duration::from_secs(seconds), words.get(2).map_or("", String::as_str)),
        ("parts", Some(seconds), None) => bench::parts(Duration::from_secs(seconds)),
        ("hubs", Some(seconds), None) => bench::hubs(Duration::from_secs(seconds)),
        ("cost", Some(milliseconds), None) if words.len() == 3 => {
            let picture = picture::svg(&bench::cost(Duration::from_millis(milliseconds)), &bench::machine());
            std::fs::write(&words[2], picture).expect("the picture can be written");
        }
        ("payloads", Some(each), Some(seed)) => std::process::exit((!payloads::payloads(each, seed)).into()),
        ("stack", None, None) => std::process::exit((!stack::stack()).into()),
        _ => println!("{HELP}"),
    }
    eprintln!("{} s", begun.elapsed().as_secs());
}
