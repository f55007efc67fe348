//! Inputs for the lister: good events, and damaged, torn and over-long ones. A program lists each, and so does `boards::events::list`.

use boards::events::{Event, encode, list};
use boards::random::Random;
use std::io::Write;
use std::process::{Command, Stdio};

/// What an input is made of.
pub const FORMS: [&str; 7] = ["good", "damaged", "torn", "wrong", "noise", "full", "long"];

/// How many bytes the lister takes.
const MOST: usize = 65_536;

/// Ids and zones of every number of digits.
fn number(random: &mut Random) -> u32 {
    (random.next() >> 32) as u32 >> random.below(32)
}

/// A finite amount by its bits, of either sign.
fn amount(random: &mut Random) -> f32 {
    let edge = random.pick(&[0, 1, 0x007f_ffff, 0x0080_0000, 0x7f7f_ffff, 0x8000_0000, 0xff7f_ffff, 0x41000000]);
    let bits = if random.once_in(2) { edge } else { random.next() as u32 };
    let amount = f32::from_bits(bits);
    if amount.is_finite() { amount } else { f32::from_bits(bits & 0x807f_ffff) }
}

fn event(random: &mut Random) -> Event {
    let (id, other) = (number(random), number(random));
    match random.below(8) {
        0 => Event::DepressurizeWanted { id },
        1 => Event::PlanetWanted { id },
        2 => Event::Pressure { zone: id, amount: amount(random), from: other, to: number(random) },
        3 => Event::Firelock { id, neighbour: other },
        4 => Event::Target { id, target: other },
        5 => Event::HighPressure { id },
        6 => Event::Difference { id, amount: amount(random), from: other, to: number(random) },
        _ => Event::FloorRip { id, amount: amount(random) },
    }
}

/// The bytes of so many events.
fn events(random: &mut Random, count: usize) -> Vec<u8> {
    encode(&(0..count).map(|_| event(random)).collect::<Vec<_>>())
}

/// A record that is wrong in one way: its kind, its length, or its amount.
fn wrong(random: &mut Random) -> Vec<u8> {
    let mut record = Event::FloorRip { id: number(random), amount: amount(random) }.bytes();
    match random.below(3) {
        0 => record[2] = random.pick(&[0, 9, 255]),
        1 => record[0] = random.pick(&[0, 8, 11, 13, 20]),
        _ => record[8..].copy_from_slice(&(random.pick(&[0x7f80_0000u32, 0xff80_0000, 0x7fc0_0000, 0x7f80_0001, 0xffff_ffff]).to_le_bytes())),
    }
    record
}

/// The input of a form that a seed decides.
pub fn input(form: usize, seed: u64) -> Vec<u8> {
    let mut random = Random::new(seed.wrapping_mul(FORMS.len() as u64).wrapping_add(form as u64));
    let count = random.within(0, 12);
    let mut bytes = events(&mut random, count);
    match FORMS[form] {
        "good" => {}
        "damaged" => {
            for _ in 0..random.within(1, 3).min(bytes.len()) {
                let at = random.within(0, bytes.len() - 1);
                bytes[at] = random.next() as u8;
            }
        }
        "torn" => bytes.truncate(random.within(0, bytes.len())),
        "wrong" => {
            bytes.extend(wrong(&mut random));
            let after = random.within(0, 2);
            bytes.extend(events(&mut random, after));
        }
        "noise" => bytes = (0..random.within(1, 40)).map(|_| random.next() as u8 & random.pick(&[0x0f, 0xff])).collect(),
        "full" => {
            bytes = events(&mut random, MOST / 8);
            bytes.truncate(MOST - random.within(0, 20));
        }
        _ => {
            bytes = events(&mut random, MOST / 4);
            bytes.truncate(MOST + random.pick(&[1, 2, 8, 4096]));
        }
    }
    bytes
}

/// What the command writes of an input.
fn listed(command: &[String], input: &[u8]) -> Result<Vec<u8>, String> {
    let mut run = Command::new(&command[0])
        .args(&command[1..])
        .stdin(Stdio::piped())
        .stdout(Stdio::piped())
        .spawn()
        .map_err(|error| format!("{}: {error}", command[0]))?;
    let mut stdin = run.stdin.take().expect("a pipe");
    let sent = input.to_vec();
    // a program may stop reading once the input is too long
    let writer = std::thread::spawn(move || drop(stdin.write_all(&sent)));
    let output = run.wait_with_output().map_err(|error| error.to_string())?;
    writer.join().expect("the writer");
    if output.status.success() { Ok(output.stdout) } else { Err(format!("ended with {}", output.status)) }
}

/// Lists so many inputs of each form; the first that differs is told.
pub fn against(command: &[String], each: u64, seed: u64) -> Result<u64, String> {
    let mut inputs = 0;
    for (form, name) in FORMS.into_iter().enumerate() {
        for seed in seed..seed + each {
            let bytes = input(form, seed);
            let (here, there) = (list(&bytes).into_bytes(), listed(command, &bytes)?);
            if here != there {
                let shown = |text: &[u8]| String::from_utf8_lossy(&text[..text.len().min(400)]).into_owned();
                return Err(format!("{name} seed {seed}: {} bytes\nlister: {}\nhere: {}", bytes.len(), shown(&there), shown(&here)));
            }
            inputs += 1;
        }
    }
    Ok(inputs)
}
