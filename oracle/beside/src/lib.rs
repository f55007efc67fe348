//! Runs beside the Rust: the text with the FILLED mixture, the text with the published one, and the document's model.

pub mod judged;
pub mod lister;
pub mod outcomes;

use boards::case::with_both_arrows;
use boards::families::{FAMILIES, case, with_turns};
use boards::paper::{ask_a, board, rows, six};
use boards::refusal::refusal;
use boards::vectors::fits;
use boards::{Board, Call, Case, Equalize, Walk, model};

/// What a comparison of the text with the model came to.
#[derive(Default)]
pub struct Agreement {
    pub boards: u64,
    /// by refusal number from 1
    pub refused: [u64; 7],
    pub first: Option<String>,
}

impl Agreement {
    /// Compares one case; the first disagreement is kept.
    pub fn test(&mut self, label: &str, case: &Case) {
        self.boards += 1;
        match refusal(case) {
            0 => {
                let (text, paper) = (filled::play::play(case), model::play(case));
                if self.first.is_none() && (text != paper || case.done(&text) != case.done(&paper)) {
                    self.first = Some(format!("{label}: {case:?}\ntext: {text:?}\npaper: {paper:?}"));
                }
            }
            number => self.refused[number as usize - 1] += 1,
        }
    }
}

/// Boards of every family and call, so many each, equalize with and without turns, depressurize with both settings of its arrows; large boards are a
/// fiftieth.
pub fn agree(each: u64, seed: u64) -> Agreement {
    let mut agreement = Agreement::default();
    for (family, name) in FAMILIES.into_iter().enumerate() {
        let count = if name == "large" { each.div_ceil(50) } else { each };
        for (call, seed) in (1..=3).flat_map(|call| (seed..seed + count).map(move |seed| (call, seed))) {
            let (label, plain) = (format!("{name} call {call} seed {seed}"), case(family, call, seed));
            with_both_arrows(&label, &plain, &mut |label, case| agreement.test(label, case));
            if call == 1 {
                agreement.test(&format!("{label} with turns"), &with_turns(plain, seed));
            }
        }
    }
    agreement
}

/// The families with their names, but for the large boards.
fn all_but_large() -> impl Iterator<Item = (usize, &'static str)> {
    FAMILIES.into_iter().enumerate().filter(|family| family.1 != "large")
}

/// Cases of some calls with the text's answers, as a file of vectors that a program without the Rust replays: the paper's boards, and of
/// every family the first so many that `fits` lets pass, of ill-formed ones three times as many; of large boards none. Depressurize
/// with arrows towards space is there too where that makes a difference.
pub fn vectors(each: u64, seed: u64, calls: &[u32]) -> String {
    let mut file = format!("# {each} boards a family and call from seed {seed}, answered by the Rust text with the FILLED mixture.\n");
    file += "# Each with no turns, and equalize with turns too; with arrows towards space too where they differ. The format: oracle/boards/src/vectors.rs.\n";
    let mut add = |name: &str, case: &Case| file += &format!("# {name}\n{}", boards::vectors::write(case, &filled::play::outcome(case)));
    rows().iter().filter(|row| calls.contains(&row.case.call.number())).for_each(|row| add(row.name, &row.case));
    if calls.contains(&1) {
        add("six turfs, three givers", &six([20.0, 0.0, 20.0, 0.0, 20.0, 0.0]));
        add("six turfs, two givers", &six([42.0, 0.0, 0.0, 18.0, 0.0, 0.0]));
    }
    for (family, name) in all_but_large() {
        let count = if matches!(name, "refusals" | "pairs") { 3 * each } else { each };
        for &call in calls {
            let cases = (seed..).map(|seed| (seed, case(family, call, seed))).filter(|(_, case)| fits(case)).take(count as usize);
            for (seed, plain) in cases {
                add(&format!("{name} {seed}"), &plain);
                other_arrows(&plain).iter().for_each(|other| add(&format!("{name} {seed} arrows to space"), other));
                if call == 1 {
                    add(&format!("{name} {seed} with turns"), &with_turns(plain, seed));
                }
            }
        }
    }
    file
}

/// The same case with arrows towards space, where that makes a difference.
fn other_arrows(case: &Case) -> Option<Case> {
    case.to_space().filter(|other| filled::play::outcome(other) != filled::play::outcome(case))
}

/// Two vectors more, which show that the program that replays them can fail: the paper's first board with another number answered than
/// the call answers, and the same torn.
pub fn wrong_vectors() -> String {
    let case = &rows()[0].case;
    let mut other = filled::play::outcome(case);
    other.answer[1] ^= 1;
    let text = boards::vectors::write(case, &other);
    let torn: String = text.lines().take(12).map(|line| format!("{line}\n")).collect();
    format!("# the first board, another number answered: it differs\n{text}# the same, torn\n{torn}")
}

/// Every board of two turfs over a set of values: amounts, who is immutable, planetary, enabled, which links and firelocks there are, one
/// mixture or two, and what is asked.
pub fn two_turfs(test: &mut impl FnMut(&Case)) {
    let amounts = [0.0, 1.0e-4, 1.0, 2.5, 9.5, 10.0, 10.5, 16.0, 24.0, 32.0, 1.0e6, 1_099_511_627_776.0];
    let flags = |bits: u32| [(bits & 1) as u8, (bits >> 1 & 1) as u8];
    for (first, second) in amounts.iter().flat_map(|&first| amounts.map(|second| (first, second))) {
        for tables in 0..4 * 4 * 4 * 4 * 2 * 2 {
            let links: [&[u32]; 2] = [&[1][..tables as usize & 1], &[0][..tables as usize >> 1 & 1]];
            let mut board = board(&links, &[first, second]);
            board.immutable = flags(tables >> 2).to_vec();
            board.planetary = flags(tables >> 4).to_vec();
            board.flags = flags(tables >> 6).map(|bit| 2 * (1 - bit)).to_vec();
            board.link_flags.fill(if tables >> 8 & 1 == 1 { 2 } else { 0 });
            if tables >> 9 & 1 == 1 {
                board.mixtures = vec![0, 0];
            }
            asked_of_two(board, test);
        }
    }
}

fn asked_of_two(board: Board, test: &mut impl FnMut(&Case)) {
    for limit in 0..3 {
        for hot in [vec![10], vec![20], vec![10, 20]] {
            for (threshold, allowance) in [(0.0, 100), (0.5, 100), (0.5, 1), (0.5, 2), (0.5, 3), (0.5, 4), (0.5, 5)] {
                let ask = Equalize { hot: hot.clone(), turns: vec![], threshold, limit, allowance };
                test(&Case::new(board.clone(), Call::Equalize(ask), 0));
            }
        }
        for id in [10, 20] {
            test(&Case::new(board.clone(), Call::Depressurize(Walk { id, limit }.into()), 0));
            test(&Case::new(board.clone(), Call::PlanetWalk(Walk { id, limit }), 0));
        }
    }
}

/// The FILLED mixture with the published rule on small amounts, or without it.
pub fn drop_small(drops: bool) {
    filled::gas::mixture::DROPS_SMALL.store(drops, std::sync::atomic::Ordering::Relaxed);
}

/// How the text with the published mixture.rs differs from the text with the FILLED one.
#[derive(Debug, Default)]
pub struct Published {
    pub boards: u64,
    pub counts: u64,
    pub event_bytes: u64,
    /// of these, where zeros of either sign count as equal
    pub event_values: u64,
    pub gas: u64,
    /// the largest difference of an amount
    pub gas_gap: f32,
}

impl Published {
    pub fn test(&mut self, case: &Case) {
        let (filled, published) = (filled::play::play(case), published::play::play(case));
        let (ours, theirs) = (case.done(&filled), case.done(&published));
        self.boards += 1;
        self.counts += u64::from(ours.answer != theirs.answer);
        self.event_bytes += u64::from(ours.events != theirs.events);
        self.event_values += u64::from(filled.events != published.events);
        let gaps = ours.amounts.iter().zip(&theirs.amounts).filter(|(a, b)| a.to_bits() != b.to_bits()).map(|(a, b)| (a - b).abs());
        let gap = gaps.fold(None, |most: Option<f32>, gap| Some(most.map_or(gap, |most| most.max(gap))));
        self.gas += u64::from(gap.is_some());
        self.gas_gap = self.gas_gap.max(gap.unwrap_or(0.0));
    }
}

/// What is seen of numbers on boards that are accepted: the largest weight, and how often one is NaN, infinite or -0.0, or gas negative.
#[derive(Debug, Default)]
pub struct Numbers {
    pub boards: u64,
    pub largest_weight: f32,
    pub odd_weights: u64,
    pub odd_amounts: u64,
    pub zones: u64,
    pub empty_zones: u64,
    pub now_refused: u64,
}

impl Numbers {
    pub fn test(&mut self, case: &Case) {
        let played = filled::play::play(case);
        self.boards += 1;
        for weight in played.planned.iter().flatten().map(|edge| edge.weight) {
            self.odd_weights += u64::from(!weight.is_finite() || weight.to_bits() == (-0.0_f32).to_bits());
            self.largest_weight = self.largest_weight.max(weight);
        }
        self.odd_amounts += u64::from(played.amounts.iter().any(|amount| !amount.is_finite() || amount.is_sign_negative()));
        self.zones += played.zones.len() as u64;
        self.empty_zones += played.zones.iter().filter(|zone| zone.nodes.is_empty()).count() as u64;
        let mut again = case.clone();
        again.board.amounts = played.amounts;
        self.now_refused += u64::from(refusal(&again) == 5);
    }
}

/// Accepted boards of every family and call, so many each, without turns; of large ones a fiftieth.
pub fn accepted(each: u64, seed: u64, mut test: impl FnMut(&Case)) {
    for (family, name) in FAMILIES.into_iter().enumerate() {
        let count = if name == "large" { each.div_ceil(50) } else { each };
        for (call, seed) in (1..=3).flat_map(|call| (seed..seed + count).map(move |seed| (call, seed))) {
            let case = case(family, call, seed);
            if refusal(&case) == 0 {
                test(&case);
            }
        }
    }
}

/// The board with the largest weight that we could think of: a chain, the first half of it as full as is accepted, the rest empty.
pub fn heaviest() -> Case {
    let mut case = deepest(4_096);
    case.board.gases = 64;
    case.board.amounts = [vec![1_099_511_627_776.0; 2_048 * 64], vec![0.0; 2_048 * 64]].concat();
    if let Call::Equalize(ask) = &mut case.call {
        ask.hot = vec![20_480];
    }
    case
}

/// The board on which finishing calls itself as deep as there are turfs: a chain whose last turf has all.
pub fn deepest(turfs: usize) -> Case {
    let links: Vec<Vec<u32>> =
        (0..turfs as u32).map(|row| [row.wrapping_sub(1), row + 1].into_iter().filter(|&end| end < turfs as u32).collect()).collect();
    let mut amounts = vec![0.0; turfs];
    (amounts[0], amounts[turfs - 1]) = (10.0, 1.0e6);
    let board = board(&links.iter().map(Vec::as_slice).collect::<Vec<_>>(), &amounts);
    Case::new(board, Call::Equalize(Equalize { threshold: 0.0, allowance: u32::MAX, ..ask_a() }), 0)
}

/// A family's boards of a call from a seed on that are small enough for the checker to compute: at most 8 turfs, 24 links and 24 amounts.
fn small_of(family: usize, call: u32, seed: u64) -> impl Iterator<Item = Case> {
    let fits = |case: &Case| case.board.ids.len() <= 8 && case.board.neighbours.len() <= 24 && case.board.amounts.len() <= 24;
    (seed..seed + 10_000).map(move |seed| case(family, call, seed)).filter(fits)
}

/// The first so many small boards of every family and call; of large boards none.
pub fn small(each: u64, seed: u64, mut test: impl FnMut(&Case)) {
    for (family, name) in all_but_large() {
        for call in 1..=3 {
            let cases: Vec<Case> = small_of(family, call, seed).take(each as usize).collect();
            assert_eq!(cases.len(), each as usize, "{name}");
            cases.iter().for_each(&mut test);
        }
    }
}

/// Of every family the first small board on which arrows towards space make a difference, as the text draws them and with these.
pub fn small_vented(seed: u64) -> Vec<Case> {
    let pair = |case: Case| other_arrows(&case).map(|other| [case, other]);
    let first = |(family, name)| small_of(family, 2, seed).find_map(pair).unwrap_or_else(|| panic!("{name}: no arrows"));
    all_but_large().flat_map(first).collect()
}
