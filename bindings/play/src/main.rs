//! play [--svg] [NAME]: plays the built-in station; with a name, the board that standard input holds, the name standing in messages.

use std::io::{stdin, stdout, Read, Write};
use std::process::ExitCode;

/// Standard input as text.
fn input() -> Result<String, String> {
    let mut bytes = Vec::new();
    stdin().read_to_end(&mut bytes).map_err(|error| format!("{error}\n"))?;
    String::from_utf8(bytes).map_err(|_| "the file isn't text\n".into())
}

fn main() -> ExitCode {
    let mut words: Vec<String> = std::env::args().skip(1).collect();
    let drawing = words.first().is_some_and(|word| word == "--svg");
    words.drain(..usize::from(drawing));
    let result = match words.first() {
        None => play::run("airlock", play::AIRLOCK, drawing),
        Some(name) => input().and_then(|board| play::run(name, &board, drawing)),
    };
    match result {
        Ok(text) => ExitCode::from(u8::from(stdout().write_all(text.as_bytes()).is_err())),
        Err(text) => {
            eprint!("{text}");
            ExitCode::FAILURE
        }
    }
}
