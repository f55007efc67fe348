//! What a plate is drawn from, as text: the board before and after, the events as the lister's lines, the counts.

use crate::played::{exact, meaning, Played};
use crate::text::{Place, Script};
use katmos::Board;

/// The whole run.
pub fn text(script: &Script, played: &[Played]) -> String {
    let t = &script.board.tables;
    let sizes = format!("{} turfs, {} links, {} mixtures, {} gases", t.ids.len(), t.neighbours.len(), t.immutable.len(), t.gases);
    let head = if script.title.is_empty() { sizes } else { format!("{}: {sizes}", script.title) };
    let calls: String = played.iter().map(|played| one(&script.places, played)).collect();
    let none = if played.is_empty() {
        "\nno call to make; the board now:\n".to_string() + &board(&script.places, &script.board, None)
    } else {
        String::new()
    };
    format!("{head}\n{calls}{none}")
}

/// One call.
fn one(places: &[Place], played: &Played) -> String {
    let board = board(places, &played.before, Some(&played.after));
    format!("\n{}\n{board}{}  {}, bytes {}\n", played.call, events(played), played.counts, played.events.as_bytes().len())
}

/// A line for each turf: id, name, amounts before and after, what is special about it.
fn board(places: &[Place], before: &Board, after: Option<&Board>) -> String {
    let amounts = |board: &Board, id| board.amounts_of(id).unwrap_or(&[]).iter().map(|&amount| exact(amount)).collect::<Vec<_>>().join(" ");
    let mut rows = vec![["turf".into(), "".into(), "before".into(), if after.is_some() { "after".into() } else { String::new() }, "".into()]];
    for (row, place) in places.iter().enumerate() {
        let after = after.map_or(String::new(), |after| amounts(after, place.id));
        rows.push([place.id.to_string(), place.name.clone(), amounts(before, place.id), after, marks(before, row)]);
    }
    let width = |column: usize| rows.iter().map(|row| row[column].chars().count()).max().unwrap_or(0);
    let [a, b, c, d] = [0, 1, 2, 3].map(width);
    let line = |r: &[String; 5]| format!("  {:>a$}  {:b$}  {:>c$}  {:>d$}  {}", r[0], r[1], r[2], r[3], r[4]).trim_end().to_string() + "\n";
    rows.iter().map(line).collect()
}

/// What is special about the turf in this row.
fn marks(board: &Board, row: usize) -> String {
    let t = &board.tables;
    let shared = t.mixtures.iter().filter(|&mixture| *mixture == t.mixtures[row]).count() > 1;
    let shared = if shared { format!("mixture {}", t.mixtures[row]) } else { String::new() };
    let marks = [
        if t.immutable[t.mixtures[row] as usize] != 0 { "immutable" } else { "" },
        if t.planetary[row] != 0 { "planetary" } else { "" },
        if t.flags[row] & 3 == 0 { "disabled" } else { "" },
        &shared,
    ];
    marks.into_iter().filter(|mark| !mark.is_empty()).collect::<Vec<_>>().join(", ")
}

/// The lister's lines, each followed by its number and what it says.
fn events(played: &Played) -> String {
    let events: Vec<(String, String)> = played
        .events
        .iter()
        .map(|event| event.map_or_else(|bad| ("bad".into(), bad.to_string()), |event| (event.to_string(), meaning(&event))))
        .collect();
    let width = events.iter().map(|(line, _)| line.len()).max().unwrap_or(0);
    events.iter().enumerate().map(|(at, (line, words))| format!("    {line:width$}  # {}: {words}\n", at + 1)).collect()
}
