//! The plates of docs/plates, and drawings of boards that are hard to draw.

use play::layout::cells;
use play::text::read;
use std::fs::{read_to_string, write};

const PLATES: &str = concat!(env!("CARGO_MANIFEST_DIR"), "/../../docs/plates");

/// What is drawn from a board of docs/plates; the built-in station is `airlock`.
fn drawn(name: &str) -> String {
    let board = if name == "airlock" { play::AIRLOCK.into() } else { read_to_string(format!("{PLATES}/{name}.txt")).expect("a board") };
    play::run(name, &board, true).expect("a plate")
}

/// A board of so many turfs in a line, each linked to the first as well.
fn fan(turfs: usize) -> String {
    let turf = |id: usize| format!("turf {id} {}\n", 20 + id);
    let link = |id: usize| if id > 1 { format!("link {id} {}\nlink 0 {id}\n", id - 1) } else { format!("link 0 {id}\n") };
    (0..turfs).map(turf).chain((1..turfs).map(link)).collect::<String>() + "equalize 0\n"
}

/// With WRITE_PLATES=1 the files are written anew.
#[test]
fn the_plates_are_todays() {
    for name in ["airlock", "chain", "turns", "hub", "airlock-out"] {
        let (file, due) = (format!("{PLATES}/{name}.svg"), drawn(name));
        if std::env::var("WRITE_PLATES").is_ok() {
            write(&file, &due).expect("a file");
        }
        assert!(read_to_string(&file).expect("a plate") == due, "{file} isn't what ./run --svg draws");
    }
}

#[test]
fn arrows_are_numbered_in_the_order_of_the_records() {
    let plate = drawn("turns");
    let places: Vec<usize> =
        ["40", "13", "10", "24"].iter().map(|amount| plate.find(&format!("paint-order='stroke'>{amount}<")).expect(amount)).collect();
    assert!(places.windows(2).all(|pair| pair[0] < pair[1]), "{places:?}");
    for line in ["3 1 42200000 30 31", "3 0 41500000 10 11", "3 0 41200000 11 12", "3 1 41c00000 31 32"] {
        assert_eq!(plate.matches(&format!(">{line}</text>")).count(), 1, "{line}");
    }
}

/// A breach by way of a firelock, two rooms and space at these places, with arrows as this word says.
fn breach(places: &str, arrows: &str) -> String {
    let [first, second, space] = places.split(' ').collect::<Vec<_>>()[..] else { panic!("{places}") };
    let rooms = format!("turf 10 21.375 at={first}\nturf 20 33.125 at={second}\nturf 90 7.625 immutable at={space}\n");
    format!("{rooms}link 10 20\nlink 20 90 firelock\ndepressurize 10 arrows={arrows}\n")
}

/// The number of an attribute.
fn number(tag: &str, name: &str) -> f32 {
    tag.split(&format!(" {name}='")).nth(1).and_then(|rest| rest.split('\'').next()?.parse().ok()).expect(tag)
}

/// What a plate's marks cover, and its amounts beside arrows, a letter being 7 wide: left, right, top, bottom. The key is left out.
fn boxes(plate: &str) -> Vec<[f32; 4]> {
    let board = plate.split("<path d='M0 0H").next().unwrap_or_default();
    let mark = |tag: &str| [number(tag, "x"), number(tag, "x") + number(tag, "width"), number(tag, "y"), number(tag, "y") + 18.0];
    let amount = |tag: &str| {
        let wide = 7.0 * tag.split(['>', '<']).nth(2).expect(tag).len() as f32;
        let part = [("start", 0.0), ("middle", 0.5), ("end", 1.0)].into_iter().find(|(word, _)| tag.contains(word)).expect(tag).1;
        let left = number(tag, "x") - part * wide;
        [left, left + wide, number(tag, "y") - 9.0, number(tag, "y")]
    };
    let marks = board.lines().filter(|line| line.contains(" height='18' rx=")).map(mark);
    marks.chain(board.lines().filter(|line| line.contains("paint-order")).map(amount)).collect()
}

#[test]
fn nothing_lies_on_a_mark() {
    let rows = ["0,0 1,0 2,0", "2,0 1,0 0,0", "0,0 0,1 0,2", "0,2 0,1 0,0"];
    let others = ["0,0 1,1 2,0", "2,0 1,1 0,0", "0,2 1,1 0,0", "0,0 2,0 2,3", "2,3 2,0 0,0", "0,0 1,2 3,0", "3,3 0,3 0,0"];
    for places in rows.iter().chain(&others) {
        let plate = play::run("breach", &breach(places, "to-space"), true).expect("a plate");
        let all = boxes(&plate);
        assert_eq!(all.len(), 14, "{places}");
        for (at, [left, right, top, bottom]) in all.iter().enumerate() {
            let meets = |other: &&[f32; 4]| other[0] < *right && *left < other[1] && other[2] < *bottom && *top < other[3];
            assert_eq!(all[at + 1..].iter().find(meets), None, "{places}: {:?}", all[at]);
        }
    }
}

#[test]
fn arrows_to_space_lead_from_room_to_room() {
    let plate = |arrows| play::run("breach", &breach("0,0 1,0 2,0", arrows), true).expect("a plate");
    let (text, out) = (plate("as-text"), plate("to-space"));
    let arrows = |plate: &str, width: &str| plate.lines().filter(|line| line.contains(&format!("stroke='#b3390b' stroke-width='{width}'"))).count();
    assert_eq!([arrows(&text, "2.4"), arrows(&text, "3.2"), arrows(&out, "2.4"), arrows(&out, "3.2")], [3, 0, 0, 3]);
    assert_eq!([text.contains("loop: difference"), out.contains("loop: difference")], [true, false]);
    assert!(out.contains(">depressurize 10 limit=1000 arrows=to-space<"));
    for line in ["7 10 42048000 10 20", "7 20 42230000 20 90", "7 90 42230000 20 90"] {
        assert_eq!(out.matches(&format!(">{line}</text>")).count(), 1, "{line}");
    }
    assert!(out.contains(">difference 40.75 in 90, arrow 20 to 90</text>"));
}

#[test]
fn every_room_has_a_cell_of_its_own() {
    for turfs in [1, 2, 9, 60] {
        let script = read(&fan(turfs)).expect("a board");
        let mut all = cells(&script.places, &script.board.tables);
        all.sort_unstable();
        all.dedup();
        assert_eq!(all.len(), turfs);
        assert!(play::run("fan", &fan(turfs), true).is_ok_and(|plate| plate.ends_with("</svg>\n")));
    }
}

#[test]
fn two_rooms_at_one_place_are_put_apart() {
    let script = read("turf 1 at=0,0\nturf 2 at=0,0\nturf 3").expect("a board");
    let all = cells(&script.places, &script.board.tables);
    assert!(all[0] == (0, 0) && all[1] != all[0] && all[2] != all[0] && all[2] != all[1], "{all:?}");
}

#[test]
fn a_board_without_calls_is_drawn() {
    let plate = play::run("a", "turf 1 7", true).expect("a plate");
    assert!(plate.contains("the board") && plate.contains(">7</text>"));
}

#[test]
fn names_cannot_break_the_drawing() {
    let plate = play::run("a", "title A <b> & 'c'\nturf 1 1 name=<&>\nplanet 1", true).expect("a plate");
    assert!(plate.contains("A &lt;b&gt; &amp; 'c'") && plate.contains("&lt;&amp;&gt;"));
}
