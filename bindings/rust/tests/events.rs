//! Records: lines, reading back, damaged areas.

use katmos::{Event, Events, Reader, Refusal};

/// One of each kind, with its line.
const EACH: [(Event, &str); 8] = [
    (Event::DepressurizeWanted { id: 10 }, "1 10"),
    (Event::PlanetWanted { id: 11 }, "2 11"),
    (Event::Pressure { zone: 0, amount: 8.0, from: 10, to: 20 }, "3 0 41000000 10 20"),
    (Event::Firelock { id: 10, neighbour: 20 }, "4 10 20"),
    (Event::Target { id: 10, target: 90 }, "5 10 90"),
    (Event::HighPressure { id: 4_294_967_295 }, "6 4294967295"),
    (Event::Difference { id: 10, amount: 0.0, from: 10, to: 10 }, "7 10 00000000 10 10"),
    (Event::FloorRip { id: 10, amount: 1.0e-40 }, "8 10 000116c2"),
];

/// An area with all of them.
fn area() -> Vec<u8> {
    let (mut bytes, mut at) = (vec![0; 200], 0);
    for (event, _) in EACH {
        at = event.write(&mut bytes, at).expect("room");
    }
    bytes.truncate(at as usize);
    bytes
}

#[test]
fn lines_are_the_listers() {
    EACH.iter().for_each(|(event, line)| assert_eq!(event.to_string(), *line));
    let text: String = EACH.iter().map(|(_, line)| format!("{line}\n")).collect();
    assert_eq!(Events::from(area()).to_string(), text);
}

#[test]
fn written_events_read_back() {
    let bytes = area();
    let read: Vec<Event> = Reader::new(&bytes).map(|event| event.expect("sound")).collect();
    assert_eq!(read, EACH.map(|(event, _)| event));
}

#[test]
fn an_empty_area_has_no_events() {
    assert_eq!(Reader::new(&[]).next(), None);
    assert_eq!(Events::default().to_string(), "");
}

#[test]
fn a_torn_area_ends_with_its_offset() {
    let bytes = area();
    for length in 0..bytes.len() {
        let mut reader = Reader::new(&bytes[..length]);
        let sound = reader.by_ref().take_while(Result::is_ok).count();
        assert!(sound < EACH.len());
        let whole = reader.offset() as usize == length;
        let text = Events::from(bytes[..length].to_vec()).to_string();
        assert_eq!(text.contains("bad"), !whole, "{length}: {text}");
        assert!(whole || text.ends_with(&format!("bad {}\n", reader.offset())));
    }
}

#[test]
fn a_damaged_record_is_the_last_item() {
    let mut bytes = area();
    bytes[10] = 9;
    let read: Vec<_> = Reader::new(&bytes).collect();
    assert_eq!(read, [Ok(EACH[0].0), Err(Refusal::Record { offset: 8 })]);
    assert_eq!(Events::from(bytes).to_string(), "1 10\nbad 8\n");
}

#[test]
fn no_byte_makes_it_fail() {
    let bytes = area();
    for (at, byte) in (0..bytes.len()).flat_map(|at| (0..=255).map(move |byte| (at, byte))) {
        let mut damaged = bytes.clone();
        damaged[at] = byte;
        assert!(Reader::new(&damaged).count() <= bytes.len() / 8 + 1);
    }
}

#[test]
fn the_writer_refuses() {
    let mut area = [7; 12];
    let infinite = Event::FloorRip { id: 1, amount: f32::INFINITY };
    assert_eq!(infinite.write(&mut area, 0).map_err(|no| no.to_string()), Err("event: the amount inf isn't finite".into()));
    let long = Event::Firelock { id: 1, neighbour: 2 }.write(&mut area, 1);
    assert_eq!(long.map_err(|no| no.to_string()), Err("events: the area is too short".into()));
    assert_eq!(area, [7; 12]);
    assert_eq!(Event::Firelock { id: 1, neighbour: 2 }.write(&mut area, 0), Ok(12));
}
