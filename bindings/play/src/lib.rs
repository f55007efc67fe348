//! Plays a board that is written as text, by the proved library; prints what a plate is drawn from, or draws the plate.
#![forbid(unsafe_code)]

pub mod geometry;
pub mod layout;
pub mod played;
pub mod print;
pub mod svg;
pub mod text;

/// The built-in station: an airlock breach.
pub const AIRLOCK: &str = include_str!("airlock.txt");

/// Reads and plays a board; text, or a drawing. An error is a line for each fault, beginning with the board's name.
pub fn run(name: &str, board: &str, drawing: bool) -> Result<String, String> {
    let located = |fault: &text::Fault| format!("{name}: {fault}\n");
    let script = text::read(board).map_err(|faults| faults.iter().map(located).collect::<String>())?;
    let played = played::play(&script).map_err(|fault| located(&fault))?;
    Ok(if drawing { svg::plate(&script, &played::or_none(&script, played)) } else { print::text(&script, &played) })
}
