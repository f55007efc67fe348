//! What the proved filling leaves, beside the text's.

use crate::parts::{alter, fill, on_boards};
use boards::Case;
use boards::refusal::refusal;
use boards::scratch::{filling_differs, fixed, refused};
use std::collections::HashSet;

/// What a comparison came to: boards; by number, those refused; those on which the clock ran out in filling; zones kept; boards with a turf
/// in two zones; bytes of requests; cells changed on purpose, each of them noticed.
#[derive(Debug, Default)]
struct Compared {
    boards: u64,
    refused: [u64; 7],
    over: u64,
    zones: u64,
    shared: u64,
    bytes: u64,
    altered: u64,
}

impl Compared {
    /// Compares one board; `Some` tells the difference.
    fn test(&mut self, case: &Case) -> Option<String> {
        let left = match fill(case) {
            Ok(left) => left,
            Err(broken) => return Some(broken.to_string()),
        };
        self.boards += 1;
        let number = refusal(case);
        if number != 0 {
            self.refused[number as usize - 1] += 1;
            return (left != refused(case, number, 6)).then(|| format!("refusal {number} is due, answer {:?}", left.answer));
        }
        let played = filled::play::play(case);
        if let Some(what) = filling_differs(case, &played, &left) {
            return Some(format!("{what}, answer {:?}", left.answer));
        }
        let rows: Vec<u32> = played.zones.iter().flat_map(|zone| zone.nodes.clone()).collect();
        let turfs: HashSet<u32> = rows.iter().copied().collect();
        self.over += u64::from(played.filling.over);
        self.zones += played.zones.len() as u64;
        self.shared += u64::from(turfs.len() < rows.len());
        self.bytes += u64::from(left.answer[5]);
        if case.board.ids.len() <= 4 && !played.filling.over {
            match alter(&left, fixed(case, &left), |changed| filling_differs(case, &played, changed).is_some()) {
                Ok(cells) => self.altered += cells,
                Err(unnoticed) => return Some(unnoticed),
            }
        }
        None
    }
}

pub fn compare(each: u64, seed: u64) {
    let mut compared = Compared::default();
    on_boards(each, seed, |case| compared.test(case));
    println!("filling: {compared:?}, no difference");
}
