//! Loads a board's turfs and links, and calls the text. A child of `turfs`, so that it can reach what is private there.

use super::{AdjacentFlags, SimulationFlags, TURF_GASES, TurfGases, TurfMixture, katmos, with_turf_gases_read};
use crate::watch::Graph;
use boards::Board;
use coarsetime::{Duration, Instant};
use indexmap::IndexMap;
use petgraph::{graph::NodeIndex, stable_graph::StableDiGraph};
use rustc_hash::FxBuildHasher;
use std::collections::BTreeSet;

/// Rows become nodes 0, 1, ..; a row's links are added last to first, since the graph yields the newest first.
pub fn load(board: &Board) {
    let mut gases = TurfGases {
        graph: StableDiGraph::with_capacity(board.ids.len(), board.neighbours.len()),
        map: IndexMap::with_capacity_and_hasher(board.ids.len(), FxBuildHasher),
    };
    for (row, &id) in board.ids.iter().enumerate() {
        gases.insert_turf(TurfMixture {
            mix: board.mixtures[row] as usize,
            id,
            flags: SimulationFlags::from_bits_truncate(board.flags[row]),
            planetary_atmos: (board.planetary[row] != 0).then_some(1),
            vis_hash: Default::default(),
        });
    }
    for row in 0..board.ids.len() {
        for link in board.links(row).rev() {
            let flags = AdjacentFlags::from_bits_truncate(board.link_flags[link]);
            gases.graph.add_edge(NodeIndex::new(row), NodeIndex::new(board.neighbours[link] as usize), flags);
        }
    }
    *TURF_GASES.write() = Some(gases);
}

/// The text's `equalize`: nodes processed, and whether it was cancelled. The clock is over once it was read more often than allowed.
pub fn equalize(limit: u32, hot: &BTreeSet<u32>, allowance: u32) -> (usize, bool) {
    coarsetime::restart();
    katmos::equalize(limit as usize, hot, (&Instant::now(), Duration::from_millis(u64::from(allowance) + 1)))
}

/// The text's `explosively_depressurize`; with arrows towards space, what the shim `tracing` puts beside it.
pub fn depressurize(id: u32, limit: u32, to_space: bool) -> eyre::Result<()> {
    let depressurize = if to_space { katmos::depressurize_mended } else { katmos::explosively_depressurize };
    depressurize(id, limit as usize)
}

pub fn planet_walk(id: u32, limit: u32) -> eyre::Result<()> {
    katmos::planet_equalize(id, limit as usize)
}

/// The text's `finalize_eq` of one node.
pub fn finish_turf(node: NodeIndex, graph: &Graph) -> Vec<(f32, u32, u32)> {
    let mut pressures = Vec::new();
    with_turf_gases_read(|arena| katmos::finish_turf(node, arena, graph, &mut pressures));
    pressures
}
