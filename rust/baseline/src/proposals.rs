//! The verdict on a proposal.

use crate::delays::Known;
use crate::files::{read_proposal, Arc, MOST_EDGES};
use crate::refuse;
use crate::schedule::{FirstTurn, Graph, Undelayed};
use resync::raw::{Refusal, VerdictAnswer};

/// Which processors paths lead to from each. Tasks of one processor lead to one another, so this says it of tasks.
pub struct Reach([u16; 16]);

impl Reach {
    pub fn new(graph: &Graph, lists: [&[Arc]; 2]) -> Reach {
        let mut words = [0_u16; 16];
        for (at, word) in words.iter_mut().enumerate() {
            *word = 1 << at;
        }
        for arc in lists.into_iter().flatten() {
            let source = graph.processor[arc.source()] as usize % 16;
            words[source] |= 1 << (graph.processor[arc.sink()] % 16);
        }
        for through in 0..16 {
            let on = words[through];
            for word in &mut words {
                *word |= on & (*word >> through & 1).wrapping_neg();
            }
        }
        Reach(words)
    }

    /// Whether an edge lies on a cycle.
    pub fn on_cycle(&self, graph: &Graph, arc: Arc) -> bool {
        let back = self.0[graph.processor[arc.sink()] as usize % 16];
        back >> (graph.processor[arc.source()] % 16) & 1 == 1
    }
}

/// Refusals of a proposal file beside an accepted graph, or its result's latency and margin.
pub fn judge(graph: &Graph, proposal: &[u8]) -> Result<VerdictAnswer, Refusal> {
    let mut proposed = [Arc(0); MOST_EDGES];
    let count = read_proposal(proposal, graph.tasks, &mut proposed)?;
    let proposed = &proposed[..count];

    let reach = Reach::new(graph, [graph.edges(), &[]]);
    let (mut kept, mut keeping) = ([Arc(0); MOST_EDGES], 0);
    for &arc in graph.edges() {
        kept[keeping % MOST_EDGES] = arc;
        keeping += usize::from(reach.on_cycle(graph, arc));
    }
    let kept = &kept[..keeping];

    let reach = Reach::new(graph, [kept, proposed]);
    if let Some(at) = proposed.iter().position(|&arc| reach.on_cycle(graph, arc)) {
        return refuse(13, at + 1);
    }

    if let Some(at) = first_lost(graph, [kept, proposed]) {
        return refuse(14, at + 1);
    }

    let mut undelayed = Undelayed::new();
    undelayed.add_ring(&graph.ring, graph.tasks);
    undelayed.add_all(kept);
    undelayed.add_all(proposed);
    let mut turn = FirstTurn::new();
    let made = turn.fill(&undelayed, &graph.time, graph.tasks);
    debug_assert!(made, "cycles are those of the accepted graph");
    let latency = turn.starts[graph.output] + graph.time[graph.output];
    let margin = graph.bound as i32 - latency as i32;
    if margin < 0 {
        return Err(Refusal {
            number: 15,
            place: 0,
            latency,
            margin,
        });
    }
    Ok(VerdictAnswer {
        refusal: Refusal::default(),
        latency,
        margin,
    })
}

/// The first of the graph's edges whose order the result of these edges does not enforce.
fn first_lost(graph: &Graph, result: [&[Arc]; 2]) -> Option<usize> {
    let mut known = Known::NOTHING;
    known.take_edges(graph, result);
    let mut arcs = graph.edges().iter();
    arcs.position(|&arc| !known.enforces(arc))
}
