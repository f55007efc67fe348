//! What the runs see of the text at work: requests asked of the game, zones as filled, planned and finished. Told by the shim `tracing`.

use boards::clock::own;
use boards::outcome::{Edge, Filling, Zone};
use petgraph::{graph::NodeIndex, graphmap::DiGraphMap};
use std::cell::{Cell, RefCell};
use std::cmp::Ordering;
use std::time::Duration;

pub type Graph = DiGraphMap<NodeIndex, Cell<f32>>;

#[derive(Default)]
struct Watch {
    threshold: f32,
    asking: bool,
    deferring: bool,
    quiet: bool,
    requests: Vec<(u16, u32)>,
    filling: Filling,
    zones: Vec<Zone>,
    planned: Vec<Vec<Edge>>,
    records: Vec<usize>,
    deferred: Vec<Graph>,
    planning: Option<Duration>,
    planned_in: Option<Duration>,
}

thread_local!(static WATCH: RefCell<Watch> = RefCell::default());

fn with<T>(f: impl FnOnce(&mut Watch) -> T) -> T {
    WATCH.with(|w| f(&mut w.borrow_mut()))
}

/// `MINIMUM_MOLES_DELTA_TO_MOVE`, as a call is lent it.
#[derive(Clone, Copy)]
pub struct Threshold;

impl PartialEq<Threshold> for f32 {
    fn eq(&self, _: &Threshold) -> bool {
        *self == with(|w| w.threshold)
    }
}

impl PartialOrd<Threshold> for f32 {
    fn partial_cmp(&self, _: &Threshold) -> Option<Ordering> {
        self.partial_cmp(&with(|w| w.threshold))
    }
}

/// A new run: the lent threshold; whether a walk that is called is only noted as a request; whether zones wait for their turns.
pub fn begin(threshold: f32, asking: bool, deferring: bool) {
    with(|w| *w = Watch { threshold, asking, deferring, ..Watch::default() });
}

/// A new run whose zones are not noted, to be timed.
pub fn begin_quiet(threshold: f32) {
    with(|w| *w = Watch { threshold, asking: true, quiet: true, ..Watch::default() });
}

/// A walk is called, and only noted: true.
pub fn requested(kind: u16, id: u32) -> bool {
    with(|w| {
        if w.asking {
            w.requests.push((kind, id));
        }
        w.asking
    })
}

/// A zone was filled; `None`: ignored, or past the clock.
pub fn filled(zone: Option<(&Graph, f32)>) {
    if let Some((graph, moles)) = zone.filter(|_| !with(|w| w.quiet)) {
        with(|w| w.zones.push(Zone { nodes: nodes(graph), edges: edges(graph), moles }));
    }
}

/// What was found up to now, by this fill and those before it; whether the clock ran out.
pub fn found(ids: impl Iterator<Item = u32>, over: bool) {
    if !with(|w| w.quiet) {
        with(|w| w.filling = Filling { found: ids.collect(), tests: coarsetime::readings() as u32, over });
    }
}

/// A zone is to be planned: with the first one planning begins.
pub fn planning() {
    with(|w| {
        w.planning.get_or_insert_with(own);
    });
}

/// A zone was planned, in the order in which zones were filled.
pub fn planned(graph: &Graph) {
    if !with(|w| w.quiet) {
        with(|w| w.planned.push(edges(graph)));
    }
}

/// A zone is to be finished: it is handed back, or it waits for its turns. With the first one planning is over.
pub fn finishing(graph: Graph) -> Option<Graph> {
    with(|w| {
        if let (Some(begun), None) = (w.planning, w.planned_in) {
            w.planned_in = Some(own() - begun);
        }
        if !w.deferring {
            return Some(graph);
        }
        w.deferred.push(graph);
        None
    })
}

/// A zone was finished, with so many records.
pub fn finished(records: usize) {
    with(|w| w.records.push(records));
}

pub fn take_requests() -> Vec<(u16, u32)> {
    with(|w| std::mem::take(&mut w.requests))
}

pub fn take_zones() -> Vec<Zone> {
    with(|w| std::mem::take(&mut w.zones))
}

/// The turfs found are ids here.
pub fn take_filling() -> Filling {
    with(|w| std::mem::take(&mut w.filling))
}

pub fn take_planned() -> Vec<Vec<Edge>> {
    with(|w| std::mem::take(&mut w.planned))
}

/// How long the planning of all zones took.
pub fn planned_in() -> Duration {
    with(|w| w.planned_in.unwrap_or_default())
}

pub fn take_records() -> Vec<usize> {
    with(|w| std::mem::take(&mut w.records))
}

pub fn take_deferred() -> Vec<Graph> {
    with(|w| std::mem::take(&mut w.deferred))
}

fn nodes(graph: &Graph) -> Vec<u32> {
    graph.nodes().map(|node| node.index() as u32).collect()
}

fn edges(graph: &Graph) -> Vec<Edge> {
    let of = |node: NodeIndex| {
        let edge = move |(from, to, weight): (NodeIndex, NodeIndex, &Cell<f32>)| Edge {
            from: from.index() as u32,
            to: to.index() as u32,
            weight: weight.get(),
        };
        graph.edges(node).map(edge).collect::<Vec<_>>()
    };
    graph.nodes().flat_map(of).collect()
}
