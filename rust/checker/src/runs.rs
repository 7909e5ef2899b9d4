//! Runs of a graph, to hold verdicts against: what document 01 calls a run, the earliest run, and allowing a run.
//!
//! Nothing here knows of paths, cycles or least delays: tasks wait for one another, turn by turn.

use crate::files::{Edge, Graph};
use crate::schedule::all_edges;

/// "A run of K turns gives every task and turn a start (a whole number from 0) and a duration of at least 1": a row of tasks
/// for each turn.
#[derive(Clone, Debug, PartialEq, Eq)]
pub struct Run {
    pub starts: Vec<Vec<usize>>,
    pub durations: Vec<Vec<usize>>,
}

impl Run {
    pub fn turns(&self) -> usize {
        self.starts.len()
    }

    /// "Turns count from 1."
    pub fn start(&self, task: usize, turn: usize) -> usize {
        self.starts[turn - 1][task]
    }

    /// "end is start plus duration"
    pub fn end(&self, task: usize, turn: usize) -> usize {
        self.start(task, turn) + self.durations[turn - 1][task]
    }

    /// "for every turn k greater than d: turn k of b starts no earlier than turn k − d of a ends"
    pub fn satisfies(&self, edge: &Edge) -> bool {
        (edge.delay + 1..=self.turns())
            .all(|turn| self.start(edge.sink, turn) >= self.end(edge.source, turn - edge.delay))
    }
}

/// "A graph allows the runs that satisfy all its edges".
pub fn allows(graph: &Graph, run: &Run) -> bool {
    all_edges(graph).iter().all(|edge| run.satisfies(edge))
}

/// The earliest run with these durations, a row of tasks for each turn; none if the graph stalls.
pub fn earliest_run(graph: &Graph, durations: &[Vec<usize>]) -> Option<Run> {
    let none = vec![vec![0; graph.tasks.len()]; durations.len()];
    delayed_run(graph, durations, &none)
}

/// The run with these durations in which every turn of a task starts so much later than it could, given the ends it waits for;
/// none if the graph stalls. Every allowed run is one of these.
pub fn delayed_run(graph: &Graph, durations: &[Vec<usize>], later: &[Vec<usize>]) -> Option<Run> {
    let edges = all_edges(graph);
    let mut into = vec![Vec::new(); graph.tasks.len()];
    for edge in &edges {
        into[edge.sink].push(edge);
    }
    let mut starts = vec![vec![None; graph.tasks.len()]; durations.len()];

    // Whatever waits for nothing that has not started gets its start, until nothing more does.
    let mut some_started = true;
    while some_started {
        some_started = false;
        for turn in 1..=durations.len() {
            for task in 0..graph.tasks.len() {
                if starts[turn - 1][task].is_some() {
                    continue;
                }
                let waits_for = into[task].iter().filter(|edge| turn > edge.delay);
                let mut ends = waits_for.map(|edge| {
                    let waited = turn - edge.delay - 1;
                    starts[waited][edge.source].map(|s: usize| s + durations[waited][edge.source])
                });
                let last = ends.try_fold(0, |last, end| end.map(|end| last.max(end)));
                if let Some(last) = last {
                    starts[turn - 1][task] = Some(last + later[turn - 1][task]);
                    some_started = true;
                }
            }
        }
    }
    let starts: Option<Vec<Vec<usize>>> = starts
        .into_iter()
        .map(|row| row.into_iter().collect())
        .collect();
    Some(Run {
        starts: starts?,
        durations: durations.to_vec(),
    })
}

#[cfg(test)]
mod tests {
    use super::*;
    use crate::example::{desk, edge};
    use crate::schedule::timetable;

    #[test]
    fn the_example_desk_at_the_estimates() {
        let run = earliest_run(&desk(), &[vec![2, 3, 1, 4], vec![2, 3, 1, 4]]).unwrap();
        assert_eq!(run.starts, [[0, 2, 2, 5], [5, 7, 9, 10]]);
        assert_eq!(run.starts, timetable(&desk(), 2));
        assert_eq!((run.start(2, 2), run.end(3, 2)), (9, 14));
        assert!(allows(&desk(), &run));
    }

    #[test]
    fn a_run_is_allowed_up_to_the_last_edge_and_turn() {
        let run = earliest_run(&desk(), &[vec![2, 3, 1, 4], vec![2, 3, 1, 4]]).unwrap();
        // Every start but the two at time 0 is held by an edge.
        for (turn, task) in [(1, 1), (1, 2), (1, 3), (2, 0), (2, 1), (2, 2), (2, 3)] {
            let mut early = run.clone();
            early.starts[turn - 1][task] -= 1;
            assert!(!allows(&desk(), &early), "turn {turn} of {task}");
        }
        let mut late = run;
        late.starts[1][3] += 5;
        assert!(allows(&desk(), &late));
    }

    #[test]
    fn delays_let_turns_go_ahead() {
        let mut ring = desk();
        ring.tasks.truncate(3);
        ring.tasks.remove(1);
        ring.edges = vec![edge(0, 1, 0), edge(1, 0, 2)];
        let run = earliest_run(&ring, &[vec![1, 9], vec![2, 1], vec![3, 1]]).unwrap();
        assert_eq!(run.starts, [[0, 1], [1, 10], [10, 13]]);
        let later = [vec![4, 0], vec![0, 0], vec![0, 6]];
        let run = delayed_run(&ring, &run.durations, &later).unwrap();
        assert_eq!(run.starts, [[4, 5], [5, 14], [14, 23]]);
        assert!(allows(&ring, &run));
    }

    #[test]
    fn a_cycle_without_a_delay_stalls() {
        let mut ring = desk();
        ring.edges = vec![edge(0, 2, 0), edge(3, 1, 0)];
        assert!(earliest_run(&ring, &[vec![1; 4]]).is_some());
        ring.edges = vec![edge(0, 2, 0), edge(3, 0, 0)];
        assert_eq!(earliest_run(&ring, &[vec![1; 4]]), None);
        ring.edges = vec![edge(0, 2, 0), edge(3, 0, 1)];
        assert!(earliest_run(&ring, &[vec![1; 4], vec![1; 4]]).is_some());
    }
}
