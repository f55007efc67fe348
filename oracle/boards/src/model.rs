//! Document 01's modules 3 to 10 as plain loops over the tables, written from the document and not from the text: the third voice where the
//! text and the port are compared, and the judge of lists of turns.

use crate::case::{Board, Breach, Call, Case, Equalize, Walk};
use crate::events::Event;
use crate::outcome::{Edge, Filling, Played, Rows, Zone, turn_order};

/// A board in play: the tables, and the gas as it stands.
struct Play<'a> {
    board: &'a Board,
    gas: Vec<f32>,
    events: Vec<Event>,
}

impl<'a> Play<'a> {
    fn new(board: &'a Board) -> Self {
        Self { board, gas: board.amounts.clone(), events: Vec::new() }
    }
    fn part(&self, mixture: u32) -> std::ops::Range<usize> {
        let gases = self.board.gases as usize;
        mixture as usize * gases..(mixture as usize + 1) * gases
    }
    fn total(&self, row: usize) -> f32 {
        let mut sum = 0.0;
        self.gas[self.part(self.board.mixtures[row])].iter().for_each(|amount| sum += amount);
        sum
    }
    /// An immutable mixture neither loses nor gains, yet its removed copy is made.
    fn move_air(&mut self, from: usize, to: usize, amount: f32) {
        let (giver, taker) = (self.board.mixtures[from], self.board.mixtures[to]);
        let ratio = amount / self.total(from);
        let ratio = if ratio >= 1.0 { 1.0 } else { ratio };
        let (givers, takers) = (self.part(giver), self.part(taker));
        let removed: Vec<f32> = self.gas[givers.clone()].iter().map(|amount| amount * ratio).collect();
        if self.board.immutable[giver as usize] == 0 {
            self.gas[givers].iter_mut().for_each(|amount| *amount *= 1.0 - ratio);
        }
        if self.board.immutable[taker as usize] == 0 {
            self.gas[takers].iter_mut().zip(removed).for_each(|(amount, more)| *amount += more);
        }
    }
    fn clear(&mut self, row: usize) {
        let part = self.part(self.board.mixtures[row]);
        if !self.board.is_immutable(row) {
            self.gas[part].fill(0.0);
        }
    }
    fn neighbours(&self, row: usize) -> impl Iterator<Item = usize> + use<'a> {
        let board = self.board;
        board.links(row).map(|link| board.neighbours[link] as usize)
    }
    fn firelock(&self, link: usize) -> bool {
        self.board.link_flags[link] & 2 != 0
    }
    fn finished(self) -> Played {
        Played {
            amounts: self.gas,
            events: self.events,
            cancelled: false,
            processed: 0,
            tests: 0,
            filling: Filling::default(),
            zones: Vec::new(),
            planned: Vec::new(),
            vented: false,
        }
    }
}

/// A zone in work: what was filled, and where each edge's weight stands.
struct Weights {
    nodes: Vec<usize>,
    edges: Vec<Vec<(usize, f32)>>,
}

impl Weights {
    fn at(&mut self, from: usize, to: usize) -> Option<&mut f32> {
        self.edges[from].iter_mut().find(|edge| edge.0 == to).map(|edge| &mut edge.1)
    }
    fn adjust(&mut self, from: usize, to: usize, amount: f32) {
        if let Some(weight) = self.at(from, to) {
            *weight += amount;
        }
        if let Some(weight) = self.at(to, from) {
            *weight -= amount;
        }
    }
    fn ends(&self, row: usize) -> Vec<usize> {
        self.edges[row].iter().map(|edge| edge.0).collect()
    }
    fn listed(&self) -> Vec<Edge> {
        let edges = |&row: &usize| self.edges[row].iter().map(move |&(to, weight)| Edge { from: row as u32, to: to as u32, weight });
        self.nodes.iter().flat_map(edges).collect()
    }
}

enum Filled {
    Zone(Weights, f32),
    Ignored,
    Over,
}

/// Module 4.
fn fill(play: &mut Play, first: usize, found: &mut [bool], ask: &Equalize, tests: &mut u32) -> Filled {
    let board = play.board;
    let mut weights = Weights { nodes: vec![first], edges: vec![Vec::new(); board.ids.len()] };
    let mut is_node = vec![false; board.ids.len()];
    let (mut queue, mut moles, mut planet, mut ignored) = (vec![first], 0.0, false, false);
    (is_node[first], found[first]) = (true, true);
    let mut popped = 0;
    while popped < queue.len() {
        let row = queue[popped];
        popped += 1;
        *tests += 1;
        if *tests > ask.allowance {
            return Filled::Over;
        }
        planet |= board.planetary[row] != 0;
        if planet && weights.nodes.len() > ask.limit as usize {
            break;
        }
        moles += play.total(row);
        for link in board.links(row) {
            let neighbour = board.neighbours[link] as usize;
            if board.is_enabled(neighbour) {
                weights.edges[row].push((neighbour, 0.0));
                if !std::mem::replace(&mut is_node[neighbour], true) {
                    weights.nodes.push(neighbour);
                }
            }
            if std::mem::replace(&mut found[neighbour], true) {
                continue;
            }
            if board.is_enabled(neighbour) {
                queue.push(neighbour);
            }
            if ignored {
                continue;
            }
            if board.is_immutable(neighbour) {
                play.events.push(Event::DepressurizeWanted { id: board.ids[row] });
                ignored = true;
            }
            if board.planetary[neighbour] != 0 && play.firelock(link) {
                play.events.push(Event::PlanetWanted { id: board.ids[row] });
            }
        }
    }
    if ignored { Filled::Ignored } else { Filled::Zone(weights, moles) }
}

/// A turf's planning state.
#[derive(Clone, Default)]
struct State {
    delta: f32,
    amount: f32,
    direction: Option<usize>,
    fast: bool,
}

/// Module 5.
fn plan(play: &Play, weights: &mut Weights, moles: f32) {
    let nodes = weights.nodes.clone();
    let average = moles / nodes.len() as f32;
    let mut states = vec![State::default(); play.board.ids.len()];
    nodes.iter().for_each(|&row| states[row].delta = play.total(row) - average);
    let split = |states: &[State]| -> (Vec<usize>, Vec<usize>) { nodes.iter().partition(|&&row| states[row].delta > 0.0) };
    let log = 31 - (nodes.len() as u32).leading_zeros() as usize;
    let (givers, takers) = split(&states);
    if givers.len() > log && takers.len() > log {
        nodes.iter().for_each(|&row| fast(weights, &mut states, row));
    }
    let (givers, takers) = split(&states);
    if givers.len() < takers.len() {
        givers.into_iter().for_each(|row| serve(weights, &mut states, row, 1.0));
    } else {
        takers.into_iter().for_each(|row| serve(weights, &mut states, row, -1.0));
    }
}

fn fast(weights: &mut Weights, states: &mut [State], row: usize) {
    states[row].fast = true;
    if states[row].delta <= 0.0 {
        return;
    }
    let ends: Vec<usize> = weights.ends(row).into_iter().filter(|&end| !states[end].fast).collect();
    let share = states[row].delta / ends.len() as f32;
    for end in ends {
        weights.adjust(row, end, share);
        states[row].delta -= share;
        states[end].delta += share;
    }
}

/// A giver gives to takers (side 1), or a taker takes from givers (side -1): the same walk with the signs turned round.
fn serve(weights: &mut Weights, states: &mut [State], row: usize, side: f32) {
    (states[row].direction, states[row].amount) = (None, 0.0);
    let mut queue = Rows::new(row, states.len());
    let mut looked = 0;
    while looked < queue.rows.len() && states[row].delta * side > 0.0 {
        let from = queue.rows[looked];
        for met in weights.ends(from) {
            if states[row].delta * side <= 0.0 {
                break;
            }
            if queue.insert(met) {
                (states[met].direction, states[met].amount) = (Some(from), 0.0);
                trade(states, row, met, side);
            }
        }
        looked += 1;
    }
    for &row in queue.rows.iter().rev() {
        let amount = states[row].amount;
        if let Some(next) = states[row].direction.filter(|_| amount != 0.0) {
            weights.adjust(row, next, amount);
            states[next].amount += amount;
            states[row].amount = 0.0;
        }
    }
}

fn trade(states: &mut [State], row: usize, met: usize, side: f32) {
    let (ours, theirs) = (states[row].delta, states[met].delta);
    if theirs * side >= 0.0 {
        return;
    }
    // As written in the text: giving, "not enough gas" is theirs strictly beyond ours; taking, "they have enough" likewise.
    if -theirs * side > ours * side {
        states[met].amount -= ours;
        states[met].delta += ours;
        states[row].delta = 0.0;
    } else {
        states[met].amount += theirs;
        states[row].delta += theirs;
        states[met].delta = 0.0;
    }
}

/// Module 6: a turf, and its givers first where it is short.
fn finish(play: &mut Play, weights: &mut Weights, zone: u32, row: usize) {
    let lifted = weights.edges[row].clone();
    weights.edges[row].iter_mut().for_each(|edge| edge.1 = 0.0);
    for &(end, amount) in lifted.iter().filter(|edge| edge.1 > 0.0) {
        if play.total(row) < amount {
            lifted.iter().filter(|edge| edge.1 < 0.0).for_each(|edge| finish(play, weights, zone, edge.0));
        }
        if let Some(weight) = weights.at(end, row) {
            *weight = 0.0;
        }
        if play.board.mixtures[row] != play.board.mixtures[end] {
            play.move_air(row, end, amount);
        }
        play.events.push(Event::Pressure { zone, amount, from: play.board.ids[row], to: play.board.ids[end] });
    }
}

fn passed_over(play: &Play, found: &[bool], row: usize, threshold: f32) -> bool {
    let total = play.total(row);
    found[row]
        || !play.board.is_enabled(row)
        || play.board.links(row).is_empty()
        || total < 10.0
        || play.neighbours(row).all(|neighbour| (play.total(neighbour) - total).abs() < threshold)
}

fn kept(zones: &[(Weights, f32)]) -> Vec<Zone> {
    let rows = |weights: &Weights| weights.nodes.iter().map(|&row| row as u32).collect();
    zones.iter().map(|(weights, moles)| Zone { nodes: rows(weights), edges: weights.listed(), moles: *moles }).collect()
}

/// The rows that are marked.
fn rows(found: &[bool]) -> Vec<u32> {
    (0..).zip(found).filter(|mark| *mark.1).map(|mark| mark.0).collect()
}

/// Modules 7 and 8.
fn equalize(board: &Board, ask: &Equalize) -> Played {
    let mut play = Play::new(board);
    let mut found = vec![false; board.ids.len()];
    let (mut zones, mut tests) = (Vec::new(), 0);
    for row in ask.hot.iter().filter_map(|id| board.ids.binary_search(id).ok()) {
        if passed_over(&play, &found, row, ask.threshold) {
            continue;
        }
        match fill(&mut play, row, &mut found, ask, &mut tests) {
            Filled::Zone(weights, moles) => zones.push((weights, moles)),
            Filled::Ignored => (),
            Filled::Over => {
                let filling = Filling { found: rows(&found), tests, over: true };
                return Played { cancelled: true, tests, filling, zones: kept(&zones), ..play.finished() };
            }
        }
    }
    let filled = kept(&zones);
    let filling = Filling { found: rows(&found), tests, over: false };
    tests += 1;
    if tests > ask.allowance {
        return Played { cancelled: true, tests, filling, zones: filled, ..play.finished() };
    }
    zones.iter_mut().for_each(|(weights, moles)| plan(&play, weights, *moles));
    let planned = zones.iter().map(|(weights, _)| weights.listed()).collect();
    let processed = filled.iter().map(|zone| zone.nodes.len() as u32).sum();
    tests += 1;
    let cancelled = tests > ask.allowance;
    if !cancelled {
        let nodes: Vec<usize> = filled.iter().map(|zone| zone.nodes.len()).collect();
        for (zone, place) in turn_order(&nodes, &ask.turns) {
            let row = zones[zone].0.nodes[place];
            finish(&mut play, &mut zones[zone].0, zone as u32, row);
        }
    }
    Played { cancelled, processed, tests, filling, zones: filled, planned, ..play.finished() }
}

/// The walk that depressurize and the planet walk begin with; `ends` says of a turf whether the walk ends there, or after it.
fn first_walk(play: &mut Play, limit: u32, first: usize, mut visit: impl FnMut(&mut Play, usize) -> Visit) {
    let board = play.board;
    let mut queue = Rows::new(first, board.ids.len());
    let mut place = 0;
    while place < queue.rows.len() {
        let row = queue.rows[place];
        place += 1;
        let (expand, end) = match visit(play, row) {
            Visit::End => return,
            Visit::Pass => (false, false),
            Visit::Expand => (true, false),
            Visit::ExpandAndEnd => (true, true),
        };
        if expand && board.is_enabled(row) && place <= limit as usize {
            for link in board.links(row) {
                let neighbour = board.neighbours[link] as usize;
                if queue.insert(neighbour) && play.firelock(link) {
                    play.events.push(Event::Firelock { id: board.ids[row], neighbour: board.ids[neighbour] });
                }
            }
        }
        if end {
            return;
        }
    }
}

enum Visit {
    End,
    Pass,
    Expand,
    ExpandAndEnd,
}

/// Module 9.
fn depressurize(board: &Board, breach: &Breach) -> Played {
    let mut play = Play::new(board);
    let Ok(first) = board.ids.binary_search(&breach.id) else { return play.finished() };
    let (mut space, mut planet) = (Vec::new(), false);
    first_walk(&mut play, breach.limit, first, |play, row| {
        if board.planetary[row] != 0 {
            planet = true;
            Visit::End
        } else if board.is_immutable(row) {
            play.events.push(Event::Target { id: board.ids[row], target: board.ids[row] });
            space.push(row);
            Visit::Pass
        } else {
            Visit::Expand
        }
    });
    if planet || space.is_empty() {
        return play.finished();
    }
    let turfs = board.ids.len();
    let (mut order, mut direction, mut target) = (Rows::none(turfs), vec![None; turfs], board.ids.clone());
    for row in space {
        order.insert(row);
    }
    let mut place = 0;
    while place < order.rows.len() {
        let row = order.rows[place];
        place += 1;
        if place > breach.limit as usize {
            continue;
        }
        for neighbour in play.neighbours(row) {
            if !board.is_immutable(neighbour) && order.insert(neighbour) {
                direction[neighbour] = Some(row);
                target[neighbour] = target[row];
                play.events.push(Event::Target { id: board.ids[neighbour], target: target[row] });
            }
        }
    }
    way_back(&mut play, &order.rows, &direction, breach.is_to_space());
    Played { vented: true, ..play.finished() }
}

/// Arrows run to the next turf, or else stay with the turf itself; the second one's id is where they run to.
fn way_back(play: &mut Play, order: &[usize], direction: &[Option<usize>], to_space: bool) {
    let mut amounts = vec![0.0; direction.len()];
    let mut rips = Vec::new();
    for &row in order.iter().rev() {
        let Some(next) = direction[row] else { continue };
        let id = play.board.ids[row];
        play.clear(row);
        play.events.push(Event::HighPressure { id });
        let sum = play.total(next);
        amounts[row] += sum;
        amounts[next] += amounts[row];
        let to = if to_space { play.board.ids[next] } else { id };
        play.events.push(Event::Difference { id, amount: amounts[row], from: id, to });
        if direction[next].is_none() {
            play.events.push(Event::Difference { id: to, amount: amounts[next], from: id, to });
        }
        rips.push(Event::FloorRip { id, amount: sum });
    }
    play.events.extend(rips);
}

/// Module 10.
fn planet_walk(board: &Board, walk: &Walk) -> Played {
    let mut play = Play::new(board);
    let Ok(first) = board.ids.binary_search(&walk.id) else { return play.finished() };
    let mut planet = false;
    first_walk(&mut play, walk.limit, first, |_, row| {
        planet |= board.planetary[row] != 0;
        match (board.is_immutable(row), planet) {
            (true, _) => Visit::End,
            (false, true) => Visit::Expand,
            (false, false) => Visit::ExpandAndEnd,
        }
    });
    play.finished()
}

/// A case that isn't refused, played by the document.
pub fn play(case: &Case) -> Played {
    match &case.call {
        Call::Equalize(ask) => equalize(&case.board, ask),
        Call::Depressurize(breach) => depressurize(&case.board, breach),
        Call::PlanetWalk(walk) => planet_walk(&case.board, walk),
    }
}
