//! Plays a script's calls, one after the other.

use crate::text::{Call, Fault, Script};
use katmos::{Arrows, Ask, Board, Event, Events, Refusal};

/// A call that was made: what it was, the amounts before and after, its events and counts.
#[derive(Clone, Debug)]
pub struct Played {
    pub call: String,
    pub before: Board,
    pub after: Board,
    pub events: Events,
    pub counts: String,
}

/// Makes every call; a refusal is a fault of the call's line.
pub fn play(script: &Script) -> Result<Vec<Played>, Fault> {
    let (mut board, mut all) = (script.board.clone(), Vec::new());
    let mut asked = Events::default();
    for (line, call) in &script.calls {
        for call in plain_calls(call, &asked) {
            let before = board.clone();
            let (events, counts) = make(&mut board, &call).map_err(|refusal| Fault { line: *line, message: format!("refused: {refusal}") })?;
            if matches!(call, Call::Equalize { .. }) {
                asked = events.clone();
            }
            all.push(Played { call: name(&call), before, after: board.clone(), events, counts });
        }
    }
    Ok(all)
}

/// The calls, or the board alone where there is none.
pub fn or_none(script: &Script, played: Vec<Played>) -> Vec<Played> {
    let board = &script.board;
    let alone =
        || Played { call: "the board".into(), before: board.clone(), after: board.clone(), events: Events::default(), counts: "no call".into() };
    if played.is_empty() {
        vec![alone()]
    } else {
        played
    }
}

/// The call itself; for an answer, what was asked for.
fn plain_calls(call: &Call, asked: &Events) -> Vec<Call> {
    let Call::Answer { limit, arrows } = *call else { return vec![call.clone()] };
    let answer = |event: Event| match event {
        Event::DepressurizeWanted { id } => Some(Call::Depressurize { id, limit, arrows }),
        Event::PlanetWanted { id } => Some(Call::PlanetWalk { id, limit }),
        _ => None,
    };
    asked.iter().flatten().filter_map(answer).collect()
}

/// Makes a call: its events, and its counts in words.
fn make(board: &mut Board, call: &Call) -> Result<(Events, String), Refusal> {
    match call {
        Call::Equalize { hot, turns, threshold, limit, allowance } => {
            let ask = Ask { hot, turns, threshold: *threshold, limit: *limit, allowance: *allowance };
            let a = board.equalize(&ask)?;
            let counts = [("processed", a.processed), ("tests", a.tests), ("zones", a.zones), ("apart", a.apart.into())];
            let counts: Vec<String> = counts.iter().map(|(name, count)| format!("{name} {count}")).collect();
            Ok((a.events, format!("cancelled {}, {}", u32::from(a.cancelled), counts.join(", "))))
        }
        Call::Depressurize { id, limit, arrows } => {
            board.depressurize(*id, *limit, *arrows).map(|a| (a.events, format!("outcome {}", a.outcome as u32)))
        }
        Call::PlanetWalk { id, limit } => board.planet_walk(*id, *limit).map(|events| (events, "no counts".into())),
        Call::Answer { .. } => Ok((Events::default(), String::new())),
    }
}

/// A call as its line would be written.
fn name(call: &Call) -> String {
    let list = |numbers: &[u32], between: &str| numbers.iter().map(u32::to_string).collect::<Vec<_>>().join(between);
    match call {
        Call::Equalize { hot, turns, threshold, limit, allowance } => {
            let turns = if turns.is_empty() { String::new() } else { format!(" turns={}", list(turns, ",")) };
            format!("equalize {}{turns} threshold={threshold} limit={limit} allowance={allowance}", list(hot, " "))
        }
        Call::Depressurize { id, limit, arrows } => format!("depressurize {id} limit={limit}{}", setting(*arrows)),
        Call::PlanetWalk { id, limit } => format!("planet {id} limit={limit}"),
        Call::Answer { limit, arrows } => format!("answer limit={limit}{}", setting(*arrows)),
    }
}

/// Where arrows run, as its word would be written; of the usual setting nothing.
fn setting(arrows: Arrows) -> &'static str {
    match arrows {
        Arrows::AsText => "",
        Arrows::ToSpace => " arrows=to-space",
    }
}

/// An amount in decimals, a very small or large one with its power of ten; exact, in that it reads back as itself.
pub fn exact(amount: f32) -> String {
    match amount {
        amount if amount != 0.0 && !(1.0e-4..1.0e9).contains(&amount.abs()) => format!("{amount:e}"),
        amount => amount.to_string(),
    }
}

/// What a record says, in words.
pub fn meaning(event: &Event) -> String {
    let words = event.amount().map(exact).unwrap_or_default();
    match *event {
        Event::DepressurizeWanted { id } => format!("{id} is open to space: depressurize it"),
        Event::PlanetWanted { id } => format!("{id} meets a planet behind a firelock"),
        Event::Pressure { zone, from, to, .. } => format!("{from} gives {to} {words} (zone {zone})"),
        Event::Firelock { id, neighbour } => format!("the firelock between {id} and {neighbour} shuts"),
        Event::Target { id, target } => format!("{id} empties towards {target}"),
        Event::HighPressure { id } => format!("high pressure in {id}"),
        Event::Difference { id, from, to, .. } => format!("difference {words} in {id}, arrow {from} to {to}"),
        Event::FloorRip { id, .. } => format!("floor of {id} rips by {words}"),
    }
}
