//! What the calls must answer according to the independent checker, in the calls' own records.

use checker::files::{Edge, Graph, Refusal};
use checker::plans::{self, Plan};
use checker::proposals::{least_delays_from, Verdict};
use checker::schedule;
use resync::raw;

/// A graph file as the checker judges it, as far as refusal 12.
pub type Judged = Result<Graph, Refusal>;

/// A refusal with this number and place, 0 and 0 for none.
pub fn refusal(number: usize, place: usize) -> raw::Refusal {
    raw::Refusal {
        number: number as u32,
        place: place as u32,
        latency: 0,
        margin: 0,
    }
}

/// The refusal of a graph, none if it is accepted.
pub fn of_graph(graph: &Judged) -> raw::Refusal {
    match graph {
        Err(of) => refusal(of.number, of.place),
        Ok(_) => refusal(0, 0),
    }
}

pub fn figures(graph: &Judged) -> raw::FiguresAnswer {
    let mut answer = raw::FiguresAnswer {
        refusal: of_graph(graph),
        ..Default::default()
    };
    if let Ok(graph) = graph {
        answer.tasks = graph.tasks.len() as u32;
        answer.edges = graph.edges.len() as u32;
        answer.latency = schedule::latency(graph) as u32;
    }
    answer
}

/// The refusal of the least delays with a list of so many elements.
pub fn least_delays(graph: &Judged, room: usize) -> raw::Refusal {
    match graph {
        Ok(graph) if room < graph.tasks.len().pow(2) => refusal(16, 0),
        graph => of_graph(graph),
    }
}

/// The least delays as the call writes them.
pub fn table(graph: &Graph) -> Vec<u16> {
    written_table(schedule::least_delays(graph))
}

/// The same, found in the quicker of the checker's two ways.
pub fn table_soon(graph: &Graph) -> Vec<u16> {
    let edges = schedule::all_edges(graph);
    let tasks = graph.tasks.len();
    let rows = (0..tasks).map(|from| least_delays_from(tasks, &edges, from));
    written_table(rows.collect())
}

fn written_table(rows: Vec<Vec<Option<usize>>>) -> Vec<u16> {
    let written = |least: Option<usize>| least.map_or(65_535, |delay| delay as u16);
    rows.concat().into_iter().map(written).collect()
}

/// The answer for edges that are redundant at these places.
pub fn redundant(graph: &Judged, places: &[usize]) -> raw::RedundantAnswer {
    raw::RedundantAnswer {
        refusal: of_graph(graph),
        words: schedule::marks(places),
        count: places.len() as u32,
    }
}

/// The refusal of a timetable of so many turns with a list of so many elements.
pub fn timetable(graph: &Judged, turns: u64, room: usize) -> raw::Refusal {
    match graph {
        _ if !(1..=64).contains(&turns) => refusal(17, 0),
        Ok(graph) if room < graph.tasks.len() * turns as usize => refusal(16, 0),
        graph => of_graph(graph),
    }
}

/// The starts as the call writes them, for 1 to 64 turns.
pub fn starts(graph: &Graph, turns: u64) -> Vec<u32> {
    let rows = schedule::timetable(graph, turns as usize);
    rows.concat().into_iter().map(|s| s as u32).collect()
}

pub fn verdict(verdict: &Verdict) -> raw::VerdictAnswer {
    let mut answer = raw::VerdictAnswer {
        refusal: refusal(verdict.number(), 0),
        ..Default::default()
    };
    let of = &mut answer.refusal;
    match verdict {
        Verdict::Accepted { latency, margin } => {
            (answer.latency, answer.margin) = (*latency as u32, *margin as i32);
        }
        Verdict::Refused(refusal) => of.place = refusal.place as u32,
        Verdict::Late { latency, margin } => {
            (of.latency, of.margin) = (*latency as u32, *margin as i32);
        }
    }
    answer
}

/// The refusal of the plan with a list of so many records.
pub fn plan_refusal(graph: &Judged, room: usize) -> raw::Refusal {
    match graph {
        Ok(accepted) => match plans::room_for_plan(accepted, room) {
            Err(short) => refusal(short.number, short.place),
            Ok(()) => refusal(0, 0),
        },
        graph => of_graph(graph),
    }
}

/// The answer for this plan, if it is written.
pub fn plan(plan: &Plan) -> raw::PlanAnswer {
    raw::PlanAnswer {
        refusal: refusal(0, 0),
        length: plan.edges.len() as u32,
        steps: plan.steps.len() as u32,
        latency: plan.latency as u32,
    }
}

/// The edges as the plan's call writes them.
pub fn records(edges: &[Edge]) -> Vec<raw::Edge> {
    let record = |edge: &Edge| raw::Edge {
        source: edge.source as u8,
        sink: edge.sink as u8,
        delay: edge.delay as u8,
    };
    edges.iter().map(record).collect()
}
