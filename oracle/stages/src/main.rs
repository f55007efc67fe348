//! The proved parts of equalize beside the Rust text: what each leaves on random boards of every family, and how long it takes.

mod bench;
mod filling;
mod parts;
mod planning;

use std::time::Instant;

const HELP: &str = "stages filling EACH SEED   what filling leaves on EACH boards a family, of large ones a hundredth, against the text
stages planning EACH SEED  what planning leaves on them, against the text
stages time                how long filling takes on the boards that speed is measured on
stages bench [NAME]        how long planning takes on them, or on those with this in their name, beside the text's";

fn main() {
    let words: Vec<String> = std::env::args().skip(1).collect();
    let number = |at: usize| words.get(at).and_then(|word| word.parse::<u64>().ok());
    let begun = Instant::now();
    match (words.first().map_or("", String::as_str), number(1), number(2)) {
        ("filling", Some(each), Some(seed)) => filling::compare(each, seed),
        ("planning", Some(each), Some(seed)) => planning::compare(each, seed),
        ("time", None, None) => bench::filling(),
        ("bench", None, None) => bench::planning(words.get(1).map_or("", String::as_str)),
        _ => println!("{HELP}"),
    }
    eprintln!("{} s", begun.elapsed().as_secs());
}
