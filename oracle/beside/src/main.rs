//! The commands of the runs beside the Rust. With no word it says which there are.

use beside::{
    Agreement, Numbers, Published, accepted, agree, deepest, drop_small, heaviest, judged, lister, outcomes, two_turfs, vectors, wrong_vectors,
};
use boards::case::with_both_arrows;
use boards::refusal::refusal;
use std::process::Command;
use std::time::Instant;

const HELP: &str = "beside agree EACH SEED       the text against the document's model: EACH boards a family and call, in each setting
beside two-turfs             the same, every board of two turfs over a set of values
beside outcomes CALL EACH SEED   cases of a call (equalize, depressurize, planet-walk, every) with what the text leaves, for `library judge`
beside outcomes limits EACH SEED   the same, boards at each limit and one beyond
beside outcomes faults EACH SEED   the same, ill-formed boards: every fault alone, and every two that break different rules
beside outcomes two-turfs STEP FIRST   the same, of every STEP boards of two turfs the one in place FIRST
beside published EACH SEED   the text with the FILLED mixture against the text with the published mixture.rs
beside numbers EACH SEED     weights and amounts on accepted boards: the largest, and the odd ones
beside vectors EACH SEED CALL..   cases of the calls (1 equalize, 2 depressurize, 3 planet walk) with the text's answers, and two that are wrong, to standard output
beside judged EACH SEED      small cases with the text's answers as rows that the checker computes, to standard output
beside bench                 how long the text's equalize takes on the boards that speed is measured on
beside lister EACH SEED COMMAND..   events, damaged, torn and over-long ones too, listed by a command and by the lister here
beside paper                 document 01's boards, played by the text: amounts before and after, the answer, the events as lines
beside stack                 how much stack the text needs on the deepest board";

fn say(what: &str, agreement: &Agreement) {
    println!(
        "{what}: {} boards, refusals 1 to 7 {:?}, {}",
        agreement.boards,
        agreement.refused,
        agreement.first.as_deref().unwrap_or("no disagreement")
    );
}

/// Plays the deepest board in a thread with so many KiB of stack: it ends, or the process dies.
fn stack_of(kib: usize) {
    let case = deepest(4_096);
    assert_eq!(refusal(&case), 0);
    let run = std::thread::Builder::new().stack_size(kib * 1024).spawn(move || filled::play::play(&case).events.len());
    println!("{} records", run.expect("a thread").join().expect("an end"));
}

/// Each board of the paper: its name, amounts before and after, the answer's numbers, the events as the lister prints them.
fn paper() {
    for row in boards::paper::rows() {
        let outcome = filled::play::outcome(&row.case);
        let bytes = outcome.answer[outcome.answer.len() - 1] as usize;
        println!("{}: {:?} -> {:?}, answer {:?}", row.name, row.case.board.amounts, outcome.amounts, outcome.answer);
        boards::events::list(&outcome.events[..bytes]).lines().for_each(|line| println!("    {line}"));
    }
}

fn bench() {
    for (name, case) in boards::bench::boards() {
        assert_eq!(refusal(&case), 0, "{name}");
        let boards::Call::Equalize(ask) = &case.call else { continue };
        let runs = if case.board.ids.len() > 1_000 { 10 } else { 2_000 };
        println!("{name}: {} ns", filled::play::time_equalize(&case.board, ask, runs, boards::clock::wall).as_nanos());
    }
}

fn stack() {
    let own = std::env::current_exe().expect("this program");
    for kib in [256, 384, 512, 640, 768, 1024, 1536, 2048] {
        let ended = Command::new(&own).args(["stack-of", &kib.to_string()]).output().expect("a run").status.success();
        println!("a chain of 4096 in {kib} KiB: {}", if ended { "ends" } else { "overflows" });
    }
}

fn main() {
    let words: Vec<String> = std::env::args().skip(1).collect();
    let number = |at: usize| words.get(at).and_then(|word| word.parse::<u64>().ok());
    let begun = Instant::now();
    match (words.first().map_or("", String::as_str), number(1), number(2)) {
        ("agree", Some(each), Some(seed)) => say("agree", &agree(each, seed)),
        ("two-turfs", None, None) => {
            let mut agreement = Agreement::default();
            two_turfs(&mut |case| with_both_arrows("two turfs", case, &mut |label, case| agreement.test(label, case)));
            say("two-turfs", &agreement);
        }
        ("outcomes", ..) => {
            let words: Vec<&str> = words[1..].iter().map(String::as_str).collect();
            if outcomes::outcomes(&words).is_none() {
                eprintln!("{HELP}");
                std::process::exit(1);
            }
        }
        ("published", Some(each), Some(seed)) => {
            for drops in [false, true] {
                println!("small amounts {} by the FILLED mixture:", if drops { "dropped" } else { "kept" });
                drop_small(drops);
                let mut by_call = [Published::default(), Published::default(), Published::default()];
                accepted(each, seed, |case| by_call[case.call.number() as usize - 1].test(case));
                ["equalize", "depressurize", "planet walk"].iter().zip(by_call).for_each(|(name, seen)| println!("{name}: {seen:?}"));
            }
        }
        ("numbers", Some(each), Some(seed)) => {
            let mut numbers = Numbers::default();
            accepted(each, seed, |case| numbers.test(case));
            numbers.test(&heaviest());
            println!("{numbers:?}, the largest weight 2^{:.2}", numbers.largest_weight.log2());
        }
        ("vectors", Some(each), Some(seed)) => {
            let calls: Vec<u32> = (3..words.len()).filter_map(number).map(|call| call as u32).collect();
            print!("{}{}", vectors(each, seed, &calls), wrong_vectors());
        }
        ("judged", Some(each), Some(seed)) => print!("{}", judged::rows(each, seed)),
        ("lister", Some(each), Some(seed)) if words.len() > 3 => match lister::against(&words[3..], each, seed) {
            Ok(inputs) => println!("lister: {inputs} inputs, no disagreement"),
            Err(first) => println!("lister: {first}"),
        },
        ("stack-of", Some(kib), None) => stack_of(kib as usize),
        ("stack", None, None) => stack(),
        ("paper", None, None) => paper(),
        ("bench", None, None) => bench(),
        _ => println!("{HELP}"),
    }
    eprintln!("{} s", begun.elapsed().as_secs());
}
