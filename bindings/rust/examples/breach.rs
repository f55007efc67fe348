//! A breach, end to end: equalize asks, depressurize answers. A hall and an airlock with a firelock between them; the airlock is open to space.
#![forbid(unsafe_code)]

use katmos::{Arrows, Ask, Board, Event, Link, Mixture, Refusal, Turf};

/// The hall (10), the airlock (20), space (90).
fn station() -> Board {
    let mixtures = [Mixture::of(&[21.0, 79.0]), Mixture::of(&[10.5, 39.5]), Mixture::space(2)];
    let hall = Turf::new(10, 0, &[Link::locked(20)]);
    let airlock = Turf::new(20, 1, &[Link::locked(10), Link::to(90)]);
    let space = Turf::new(90, 2, &[Link::to(20)]);
    Board::new(2, &mixtures, &[hall, airlock, space])
}

fn main() -> Result<(), Refusal> {
    let mut board = station();
    let asked = board.equalize(&Ask { hot: &[10], ..Ask::default() })?;
    println!("equalize: {} zones, {} clock tests\n{}", asked.zones, asked.tests, asked.events);
    for event in &asked.events {
        if let Event::DepressurizeWanted { id } = event? {
            let answer = board.depressurize(id, 100, Arrows::AsText)?;
            println!("depressurize {id}: {:?}\n{}", answer.outcome, answer.events);
        }
    }
    for (name, id) in [("hall", 10), ("airlock", 20)] {
        println!("{name}: {} moles", board.total_of(id).unwrap_or_default());
    }
    Ok(())
}
