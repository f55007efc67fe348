//! Cases with the text's answers as rows that the checker computes by the definitions: crates/judged/specs/Rows.antt.

use crate::{small, small_vented};
use boards::families::with_turns;
use boards::{Board, Call, Case, Outcome};

fn list(items: impl Iterator<Item = u32>) -> String {
    let items: String = items.map(|item| format!("{item} ∷ ")).collect();
    if items.is_empty() { "[]".to_string() } else { format!("({items}[])") }
}

fn words(items: &[u32]) -> String {
    list(items.iter().copied())
}

fn bytes(items: &[u8]) -> String {
    list(items.iter().map(|&byte| u32::from(byte)))
}

fn bits(items: &[f32]) -> String {
    list(items.iter().map(|x| x.to_bits()))
}

fn tables(board: &Board) -> String {
    format!(
        "(record {{ ids = {}; flags = {}; planetary = {}; mixtures = {}; starts = {}; neighbours = {}; link_flags = {}; immutable = {}; gases = {} }})",
        words(&board.ids),
        bytes(&board.flags),
        bytes(&board.planetary),
        words(&board.mixtures),
        words(&board.starts),
        words(&board.neighbours),
        bytes(&board.link_flags),
        bytes(&board.immutable),
        board.gases
    )
}

/// One case and what is due, as a claim.
fn row(case: &Case, outcome: &Outcome) -> String {
    let (call, board) = match &case.call {
        Call::Equalize(ask) => {
            let record = format!(
                "(record {{ hot = {}; threshold = of_word {}; limit = {}; allowance = {} }})",
                words(&ask.hot),
                ask.threshold.to_bits(),
                ask.limit,
                ask.allowance
            );
            (format!("{record} {}", words(&ask.turns)), "equalizes_as")
        }
        Call::Depressurize(breach) => (format!("(breach_of {} {} {})", breach.id, breach.limit, breach.arrows), "depressurizes_as"),
        Call::PlanetWalk(walk) => (format!("{} {}", walk.limit, walk.id), "walks_planet_as"),
    };
    let done = outcome.answer[0] == 0;
    let (room, written) = (case.room(), outcome.answer[outcome.answer.len() - 1] as usize);
    let zeros = if done { [room.words, room.floats] } else { [0, 0] };
    format!(
        "{board} {} {call} {} (record {{ area = {}; words = {}; floats = {} }}) (record {{ answer = {}; gas = {}; bytes = {}; words = {}; floats = {} }})",
        tables(&case.board),
        bits(&case.board.amounts),
        case.events.len(),
        case.words.len(),
        case.floats.len(),
        words(&outcome.answer),
        bits(&outcome.amounts),
        bytes(if done { &outcome.events[..written] } else { &[] }),
        zeros[0],
        zeros[1]
    )
}

/// The file: so many small boards of every family and call from a seed, each equalize with and without turns; then of every family the first on
/// which arrows towards space make a difference, with both settings.
pub fn rows(each: u64, seed: u64) -> String {
    let mut cases = Vec::new();
    small(each, seed, |case| {
        cases.push(case.clone());
        if matches!(&case.call, Call::Equalize(ask) if ask.turns.is_empty()) {
            cases.push(with_turns(case.clone(), seed));
        }
    });
    cases.extend(small_vented(seed));
    let rows: Vec<String> = cases.iter().map(|case| row(case, &filled::play::outcome(case))).collect();
    format!(
        "-- {} small boards of every family from seed {seed} with the Rust's answers; written by `beside judged {each} {seed}` in oracle/.
use Rattle.std.specs.Prelude.{{List, [], ◌∷◌, Bool}}
use Rattle.basics.specs.Floats.{{of_word}}
use Rattle.rules_depressurize.specs.Depressurize.{{breach_of}}
use Rattle.judged.specs.Judge.{{equalizes_as, depressurizes_as, walks_planet_as}}

-- each call answers and leaves what the Rust does
unfoldable pub judged_rows : List Bool
judged_rows =
    {}
    ∷ []
",
        rows.len(),
        rows.join("\n    ∷ ")
    )
}
