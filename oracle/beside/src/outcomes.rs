//! Cases with what the text answers and leaves, as packets to standard output, for a program that has only the library to call.

use boards::case::with_both_arrows;
use boards::families::cases;
use boards::vectors::{Sink, put};
use boards::{Case, faults, limits};
use filled::play::outcome;
use std::io::{BufWriter, Result, Write};

/// Sends packets: a packet is how long the rest of it is, what the case is called, the case and its outcome (`boards::vectors`).
pub struct Sender<W: Write> {
    out: BufWriter<W>,
    packet: Vec<u8>,
}

impl<W: Write> Sender<W> {
    pub fn new(out: W) -> Self {
        Self { out: BufWriter::with_capacity(1 << 16, out), packet: Vec::new() }
    }
    /// One case. A reader that is gone ends the run.
    pub fn send(&mut self, label: &str, case: &Case) {
        self.packet.clear();
        self.packet.bytes(label.as_bytes());
        put(&mut self.packet, case, &outcome(case));
        let sent = self.out.write_all(&(self.packet.len() as u32).to_le_bytes()).and_then(|()| self.out.write_all(&self.packet));
        if sent.is_err() {
            std::process::exit(1);
        }
    }
    /// The end, which a stream that was cut off lacks.
    pub fn end(mut self) -> Result<()> {
        self.out.write_all(&[0; 4])?;
        self.out.flush()
    }
}

/// The cases that these words name; `None` where they name none.
pub fn outcomes(words: &[&str]) -> Option<()> {
    let number = |at: usize| words.get(at).and_then(|word| word.parse::<u64>().ok());
    let mut sender = Sender::new(std::io::stdout().lock());
    let mut send = |label: &str, case: &Case| sender.send(label, case);
    match (*words.first()?, number(1), number(2)) {
        ("equalize", Some(each), Some(seed)) => cases(1, each, seed, &mut send),
        ("depressurize", Some(each), Some(seed)) => cases(2, each, seed, &mut send),
        ("planet-walk", Some(each), Some(seed)) => cases(3, each, seed, &mut send),
        ("every", Some(each), Some(seed)) => (1..=3).for_each(|call| cases(call, each, seed, &mut send)),
        ("limits", Some(each), Some(seed)) => {
            send("the deepest board", &crate::deepest(4_096));
            send("the heaviest board", &crate::heaviest());
            (seed..seed + each).for_each(|seed| limits::cases(seed, &mut send));
        }
        ("faults", Some(each), Some(seed)) => (seed..seed + each).for_each(|seed| faults::cases(seed, &mut |label, _, case| send(label, case))),
        ("two-turfs", Some(step @ 1..), Some(first)) => {
            let mut place = 0;
            crate::two_turfs(&mut |case| {
                if place % step == first {
                    with_both_arrows(&format!("two turfs, place {place}"), case, &mut send);
                }
                place += 1;
            });
        }
        _ => return None,
    }
    sender.end().ok()
}
