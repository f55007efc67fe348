//! What the runs beside the Rust showed, one smallest board each; docs/DIFFERENCES.md names them.

use beside::{Numbers, accepted, vectors};
use boards::events::encode;
use boards::families::cases;
use boards::paper::{ask_a, board, board_a, breached_chain};
use boards::refusal::refusal;
use boards::{Board, Breach, Call, Case, Equalize, Event, Played, model};
use filled::play::{outcome, play};

fn equalize(board: Board, ask: Equalize) -> Case {
    Case::new(board, Call::Equalize(ask), 0)
}

/// What a call of equalize leaves by the text and by the model: amounts, and exactly these events.
fn leaves(board: Board, ask: Equalize, amounts: &[f32], events: &[Event]) {
    let case = equalize(board, ask);
    let (got, bytes) = (outcome(&case), encode(events));
    assert_eq!(got, case.done(&model::play(&case)));
    assert_eq!((&got.amounts[..], &got.events[..bytes.len()], got.answer[6]), (amounts, &bytes[..], bytes.len() as u32));
}

fn pressure(zone: u32, amount: f32, from: u32, to: u32) -> Event {
    Event::Pressure { zone, amount, from, to }
}

/// The files that are compiled are the published ones.
#[test]
fn the_text_is_unchanged() {
    let text = concat!(env!("CARGO_MANIFEST_DIR"), "/../text");
    let sums = std::process::Command::new("sha256sum").args(["-c", "--quiet", "SHA256SUMS"]).current_dir(text).status();
    assert!(sums.expect("sha256sum").success());
    let file = |name: String| std::fs::read(format!("{text}/../{name}")).expect("a file of the text");
    for name in ["turfs.rs", "turfs/katmos.rs", "gas.rs", "gas/constants.rs"] {
        assert_eq!(file(format!("filled/src/{name}")), file(format!("text/src/{name}")), "{name}");
        assert_eq!(file(format!("published/src/{name}")), file(format!("text/src/{name}")), "{name}");
    }
    assert_eq!(file("published/src/gas/mixture.rs".to_string()), file("text/src/gas/mixture.rs".to_string()));
}

/// A hot turf whose neighbours are all disabled gives a zone of one node: no zone is without nodes.
#[test]
fn a_zone_has_a_node() {
    let zones = play(&equalize(Board { flags: vec![2, 0], ..board_a() }, ask_a())).zones;
    assert_eq!(zones.iter().map(|zone| zone.nodes.clone()).collect::<Vec<_>>(), [[0]]);
    let mut numbers = Numbers::default();
    accepted(100, 7, |case| numbers.test(case));
    assert!(numbers.zones > 1_000 && numbers.empty_zones == 0, "{numbers:?}");
    assert!(numbers.odd_weights == 0 && numbers.odd_amounts == 0, "{numbers:?}");
}

/// The planet break lets two zones share turfs though every link has its reverse.
#[test]
fn zones_share_turfs() {
    let case = equalize(Board { planetary: vec![1, 0], ..board_a() }, Equalize { hot: vec![10, 20], limit: 0, ..ask_a() });
    let answer = outcome(&case).answer;
    assert_eq!((answer[2], answer[4], answer[5]), (3, 2, 0), "{answer:?}");
}

/// The first turf of a zone is not asked whether it is immutable: it gives, and doesn't lose.
#[test]
fn the_first_turf_may_be_immutable() {
    leaves(Board { immutable: vec![1, 0], ..board_a() }, ask_a(), &[32.0, 24.0], &[pressure(0, 8.0, 10, 20)]);
}

/// Zones are numbered from 0 as they are kept: an ignored one in between takes no number.
#[test]
fn an_ignored_zone_takes_no_number() {
    let links: [&[u32]; 6] = [&[1], &[0], &[3], &[2], &[5], &[4]];
    let breached = Board { immutable: vec![0, 0, 0, 1, 0, 0], ..board(&links, &[32.0, 16.0, 32.0, 0.0, 32.0, 16.0]) };
    let events = [Event::DepressurizeWanted { id: 30 }, pressure(0, 8.0, 10, 20), pressure(1, 8.0, 50, 60)];
    leaves(breached, Equalize { hot: vec![10, 30, 50], ..ask_a() }, &[24.0, 24.0, 32.0, 0.0, 24.0, 24.0], &events);
}

/// A turn goes to the zone's next node though that is done already as a giver: 20 finishes 10 first, the second turn goes to 10, and 50 comes before 30.
#[test]
fn a_turn_goes_to_a_node_done_as_a_giver() {
    let links: [&[u32]; 6] = [&[1], &[0, 2], &[1, 3], &[2], &[5], &[4]];
    let ask = Equalize { hot: vec![20, 50], turns: vec![0, 0, 1], ..ask_a() };
    let events = [pressure(0, 44.0, 10, 20), pressure(0, 35.0, 20, 30), pressure(1, 8.0, 50, 60), pressure(0, 15.0, 30, 40)];
    leaves(board(&links, &[64.0, 11.0, 0.0, 5.0, 32.0, 16.0]), ask, &[20.0, 20.0, 19.999998, 20.0, 24.0, 24.0], &events);
}

/// An accepted call can leave amounts that the next call refuses.
#[test]
fn the_domain_is_not_closed() {
    let most = 1_099_511_627_776.0_f32;
    let mut case = equalize(Board { gases: 2, amounts: vec![most, most, most, 0.0], ..board_a() }, ask_a());
    let after = outcome(&case).amounts;
    assert_eq!(after.iter().fold(0.0, |a: f32, &b| a.max(b)), 1.25 * most);
    case.board.amounts = after;
    assert_eq!(refusal(&case), 5);
}

/// The arrows of kind 7: id, amount, from, to.
fn arrows(played: &Played) -> Vec<(u32, f32, u32, u32)> {
    let arrow = |event: &Event| if let Event::Difference { id, amount, from, to } = *event { Some((id, amount, from, to)) } else { None };
    played.events.iter().filter_map(arrow).collect()
}

/// All else: an arrow keeps only its place and its amount.
fn without_arrows(mut played: Played) -> Played {
    for event in &mut played.events {
        if let Event::Difference { id, from, to, .. } = event {
            (*id, *from, *to) = (0, 0, 0);
        }
    }
    played
}

/// The text names the turf itself where it means the next one on the way to space, so its arrows run from a turf to itself; with that word mended
/// they run to the next turf, and the second one at the end of the way is the space's.
#[test]
fn one_word_points_arrows_to_space() {
    let drawn = |arrows| play(&Case::new(breached_chain(), Call::Depressurize(Breach { id: 10, limit: 2, arrows }), 0));
    let (text, mended) = (drawn(0), drawn(1));
    assert_eq!(arrows(&text), [(10, 16.0, 10, 10), (20, 20.0, 20, 20), (20, 20.0, 20, 20)]);
    assert_eq!(arrows(&mended), [(10, 16.0, 10, 20), (20, 20.0, 20, 30), (30, 20.0, 20, 30)]);
    assert_eq!(without_arrows(text), without_arrows(mended));
}

/// On random boards that word changes nothing else, and whatever number isn't 0 asks for it.
#[test]
fn only_arrows_change() {
    let mut changed = 0;
    cases(2, 100, 1, &mut |label, case| {
        let Call::Depressurize(breach) = &case.call else { panic!("{label}") };
        if refusal(case) != 0 || !breach.is_to_space() {
            return;
        }
        let with = |arrows| play(&Case { call: Call::Depressurize(Breach { arrows, ..breach.clone() }), ..case.clone() });
        let (text, mended) = (with(0), with(1));
        assert_eq!(play(case), mended, "{label}");
        changed += u32::from(text != mended);
        assert!(arrows(&text).iter().all(|&(id, _, from, to)| id == from && from == to), "{label}");
        assert!(arrows(&mended).iter().all(|&(id, _, from, to)| from != to && (id == from || id == to)), "{label}");
        assert_eq!(without_arrows(text), without_arrows(mended), "{label}");
    });
    assert!(changed > 100, "{changed}");
}

/// floor(log2 n), as the text takes it from an f32, is what the leading zeros say.
#[test]
fn log2_by_leading_zeros() {
    assert!((1..=8_192_u32).all(|n| (n as f32).log2().floor() as u32 == 31 - n.leading_zeros()));
}

/// The vectors' file reads back as what was written.
#[test]
fn vectors_read_back() {
    let file = vectors(2, 5, &[1, 2, 3]);
    let cases = boards::vectors::read(&file);
    assert_eq!(cases.len(), file.lines().filter(|line| line.starts_with('#')).count() - 2);
    assert!(cases.iter().all(|(case, due)| &outcome(case) == due));
}
