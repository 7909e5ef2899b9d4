//! An independent judge of schedules, to compare the proved calls on a graph with.
//!
//! It is written from the memorandum (document 000) as document 01 reads it, as plainly as possible and without regard to speed:
//! least delays by going through every sum of delays there is (000's rho, over paths of one or more edges), redundant edges by
//! leaving each out ("if its removal yields a graph that preserves G"), latency by going back along the paths (Theorem 2, counted
//! from time zero), the timetable by running the desk. It shares no code with the other side.

use crate::files::{processor_edges, read_graph, refuse, Edge, Graph, Refusal};
use std::collections::BTreeSet;

/// Reads a graph file and judges it as far as refusal 12. A graph that passes is accepted.
pub fn accept_graph(file: &[u8]) -> Result<Graph, Refusal> {
    let graph = read_graph(file)?;
    judge(&graph)?;
    Ok(graph)
}

/// Refusals 9 to 12 of a well-formed graph. Their place is 0.
pub fn judge(graph: &Graph) -> Result<(), Refusal> {
    // "a cycle of total delay 0": no delay is negative, so all its edges have delay 0
    let undelayed = undelayed_edges(graph);
    for task in 0..graph.tasks.len() {
        if ends_of_paths(&undelayed, task).contains(&task) {
            return refuse(9, 0);
        }
    }

    // "the input has an incoming edge of delay 0"
    if undelayed.iter().any(|edge| edge.sink == graph.input) {
        return refuse(10, 0);
    }

    // "input equals output, or no path of delay 0 joins them"
    if graph.input == graph.output {
        return refuse(11, 0);
    }
    if !ends_of_paths(&undelayed, graph.input).contains(&graph.output) {
        return refuse(11, 0);
    }

    // "the bound is below the graph's latency"
    if graph.bound < latency(graph) {
        return refuse(12, 0);
    }
    Ok(())
}

/// The processor edges and the synchronization edges.
pub fn all_edges(graph: &Graph) -> Vec<Edge> {
    [processor_edges(graph), graph.edges.clone()].concat()
}

/// Those of delay 0 among all edges.
pub fn undelayed_edges(graph: &Graph) -> Vec<Edge> {
    let mut edges = all_edges(graph);
    edges.retain(|edge| edge.delay == 0);
    edges
}

/// The tasks where a path of one or more of these edges ends that begins at this task: itself too, if it is on a cycle.
pub fn ends_of_paths(edges: &[Edge], from: usize) -> BTreeSet<usize> {
    let mut ends = BTreeSet::new();
    let mut waiting = vec![from];
    while let Some(task) = waiting.pop() {
        for edge in edges.iter().filter(|edge| edge.source == task) {
            if ends.insert(edge.sink) {
                waiting.push(edge.sink);
            }
        }
    }
    ends
}

/// "Latency is the largest sum of estimated times along a path of delay-0 edges that ends at the latency output, the output's
/// time included. The path may begin at any task, and may be the output alone." Only for a graph without a cycle of delay 0.
pub fn latency(graph: &Graph) -> usize {
    let mut known = vec![None; graph.tasks.len()];
    largest_sum_to(graph, &undelayed_edges(graph), graph.output, &mut known)
}

/// The largest sum of times along a path that ends at this task: it is the task alone, or comes over one of the edges into
/// it. There can be very many paths, so what has been found is kept.
fn largest_sum_to(
    graph: &Graph,
    undelayed: &[Edge],
    task: usize,
    known: &mut [Option<usize>],
) -> usize {
    if let Some(sum) = known[task] {
        return sum;
    }
    let mut largest_before = 0;
    for edge in undelayed.iter().filter(|edge| edge.sink == task) {
        let before = largest_sum_to(graph, undelayed, edge.source, known);
        largest_before = largest_before.max(before);
    }
    let sum = largest_before + graph.tasks[task].time;
    known[task] = Some(sum);
    sum
}

/// The least delay from each task (row) to each task (column), none if there is no path.
pub fn least_delays(graph: &Graph) -> Vec<Vec<Option<usize>>> {
    let edges = all_edges(graph);
    let everywhere: BTreeSet<usize> = (0..graph.tasks.len()).collect();
    (0..graph.tasks.len())
        .map(|from| first_sums(graph.tasks.len(), &edges, from, &everywhere))
        .collect()
}

/// The least delay over these edges, none if there is no path.
pub fn least_delay(task_count: usize, edges: &[Edge], from: usize, to: usize) -> Option<usize> {
    first_sums(task_count, edges, from, &BTreeSet::from([to]))[to]
}

/// The least delay from a task to those wanted; for others it may be left out.
///
/// A path of one or more edges out of the task ends at some task with some sum of delays. Every such pair is visited, smaller
/// sums first, so the first sum that a task is met with is the least. Done when all those wanted have been met that any path
/// leads to.
fn first_sums(
    task_count: usize,
    edges: &[Edge],
    from: usize,
    wanted: &BTreeSet<usize>,
) -> Vec<Option<usize>> {
    let mut out_of = vec![Vec::new(); task_count];
    for edge in edges {
        out_of[edge.source].push(*edge);
    }
    let mut missing = ends_of_paths(edges, from);
    missing.retain(|task| wanted.contains(task));

    // met[sum][task]: a path with this sum ends at this task. There are always 256 sums ahead, as no edge adds more than 255.
    let mut met = vec![vec![false; task_count]; 256];
    for edge in &out_of[from] {
        met[edge.delay][edge.sink] = true;
    }
    let mut first = vec![None; task_count];
    let mut sum = 0;
    while !missing.is_empty() {
        met.push(vec![false; task_count]);
        let mut waiting: Vec<usize> = (0..task_count).filter(|&task| met[sum][task]).collect();
        while let Some(task) = waiting.pop() {
            if first[task].is_none() {
                first[task] = Some(sum);
                missing.remove(&task);
            }
            for edge in &out_of[task] {
                let longer = sum + edge.delay;
                if !met[longer][edge.sink] {
                    met[longer][edge.sink] = true;
                    if longer == sum {
                        waiting.push(edge.sink);
                    }
                }
            }
        }
        sum += 1;
    }
    first
}

/// The places, from 1 and ascending, of the redundant edges: "A synchronization edge is redundant if, without it, the least
/// delay between its ends is at most its own."
pub fn redundant_places(graph: &Graph) -> Vec<usize> {
    let mut places = Vec::new();
    for (index, edge) in graph.edges.iter().enumerate() {
        let mut without = graph.clone();
        without.edges.remove(index);
        let edges = all_edges(&without);
        let least = least_delay(graph.tasks.len(), &edges, edge.source, edge.sink);
        if least.map_or(false, |least| least <= edge.delay) {
            places.push(index + 1);
        }
    }
    places
}

/// The earliest starts at the estimated times: a row of tasks for each turn. Only for a graph without a cycle of delay 0.
///
/// The desk is run. Each processor has its tasks in ascending number, over and over, and starts the next when the one before
/// has ended and the turns that the synchronization edges ask for have ended too. What can start, starts at once; then time
/// goes on to the next end of a task. As no task takes no time, nothing that starts now can let another start now.
pub fn timetable(graph: &Graph, turns: usize) -> Vec<Vec<usize>> {
    let mut processors = Vec::new();
    for processor in 0..16 {
        let tasks: Vec<usize> = (0..graph.tasks.len())
            .filter(|&task| graph.tasks[task].processor == processor)
            .collect();
        let work = tasks.len() * turns;
        processors.push(Processor {
            tasks,
            work,
            started: 0,
            busy: None,
        });
    }
    let mut starts = vec![vec![0; graph.tasks.len()]; turns];
    let mut turns_ended = vec![0; graph.tasks.len()];

    let mut now = Some(0);
    while let Some(time) = now {
        for processor in &mut processors {
            if let Some((task, end)) = processor.busy {
                if end == time {
                    turns_ended[task] += 1;
                    processor.busy = None;
                }
            }
        }
        for processor in &mut processors {
            if processor.busy.is_some() || processor.started == processor.work {
                continue;
            }
            let task = processor.tasks[processor.started % processor.tasks.len()];
            let turn = processor.started / processor.tasks.len() + 1;
            // "for every turn k greater than d: turn k of b starts no earlier than turn k - d of a ends"
            let ready = graph
                .edges
                .iter()
                .filter(|edge| edge.sink == task && turn > edge.delay)
                .all(|edge| turns_ended[edge.source] >= turn - edge.delay);
            if ready {
                starts[turn - 1][task] = time;
                processor.busy = Some((task, time + graph.tasks[task].time));
                processor.started += 1;
            }
        }
        let ends = processors.iter().filter_map(|processor| processor.busy);
        now = ends.map(|(_, end)| end).min();
    }
    assert!(processors.iter().all(|p| p.started == p.work), "stalled");
    starts
}

/// A processor of the desk as it runs.
struct Processor {
    tasks: Vec<usize>,
    /// How many turns of tasks it is to do.
    work: usize,
    started: usize,
    /// What it is doing, and until when.
    busy: Option<(usize, usize)>,
}

/// "256 marks in four 64-bit words, edge 1 the most significant bit of the first word": with marks at these places.
pub fn marks(places: &[usize]) -> [u64; 4] {
    let mut words = [0; 4];
    for place in 1..=256 {
        if places.contains(&place) {
            words[(place - 1) / 64] |= 1 << (63 - (place - 1) % 64);
        }
    }
    words
}

/// The places, from 1 and ascending, of the marks that are set.
pub fn places(words: [u64; 4]) -> Vec<usize> {
    let text: String = words.iter().map(|word| format!("{word:064b}")).collect();
    let bits = text.chars().enumerate();
    bits.filter(|(_, bit)| *bit == '1')
        .map(|(index, _)| index + 1)
        .collect()
}

#[cfg(test)]
mod tests {
    use super::*;
    use crate::example::{desk, edge};
    use crate::files::Task;

    /// Tasks as pairs of processor and time; the bound is the largest.
    fn graph(tasks: &[(usize, usize)], edges: &[Edge], input: usize, output: usize) -> Graph {
        let tasks = tasks
            .iter()
            .map(|&(processor, time)| Task { processor, time });
        Graph {
            tasks: tasks.collect(),
            edges: edges.to_vec(),
            input,
            output,
            bound: (1 << 23) - 1,
        }
    }

    /// Two tasks that wait for one another, the first at most two turns ahead.
    fn ring() -> Graph {
        graph(&[(0, 3), (1, 5)], &[edge(0, 1, 0), edge(1, 0, 2)], 0, 1)
    }

    fn number(graph: &Graph) -> usize {
        judge(graph).map_or_else(|refusal| refusal.number, |()| 0)
    }

    #[test]
    fn answers_for_the_example_desk() {
        assert_eq!(judge(&desk()), Ok(()));
        assert_eq!(latency(&desk()), 9);
        assert_eq!(redundant_places(&desk()), [3]);
        assert_eq!(marks(&[3]), [0x2000_0000_0000_0000, 0, 0, 0]);
        assert_eq!(timetable(&desk(), 2), [[0, 2, 2, 5], [5, 7, 9, 10]]);
        let table = [
            [Some(1), Some(0), Some(0), Some(0)],
            [Some(1), Some(1), Some(1), Some(0)],
            [None, None, Some(1), Some(0)],
            [None, None, Some(1), Some(1)],
        ];
        assert_eq!(least_delays(&desk()), table);
    }

    #[test]
    fn bounds_of_the_example_desk() {
        let mut desk = desk();
        desk.bound = 9;
        assert_eq!(number(&desk), 0);
        desk.bound = 8;
        assert_eq!(judge(&desk), refuse(12, 0));
    }

    #[test]
    fn answers_for_a_ring() {
        assert_eq!(number(&ring()), 0);
        assert_eq!(latency(&ring()), 8);
        assert_eq!(redundant_places(&ring()), [0; 0]);
        let table = [[Some(1), Some(0)], [Some(2), Some(1)]];
        assert_eq!(least_delays(&ring()), table);
        // Task 0 is two turns ahead at first, then waits.
        let starts = [[0, 3], [3, 8], [8, 13], [13, 18]];
        assert_eq!(timetable(&ring(), 4), starts);
    }

    #[test]
    fn latency_counts_from_any_task() {
        let edges = [edge(0, 2, 0), edge(1, 2, 0), edge(2, 1, 1)];
        let desk = graph(&[(0, 1), (1, 100), (2, 5)], &edges, 0, 2);
        assert_eq!(latency(&desk), 105);
        assert_eq!(
            timetable(&desk, 2),
            [[0, 0, 100], [1, 105, 205]],
            "turn 2 of 1 waits for turn 1 of 2"
        );
    }

    #[test]
    fn redundant_by_a_path_or_a_parallel_edge() {
        let lone = [(0, 1), (1, 1), (2, 1)];
        let with = |edges: &[Edge]| redundant_places(&graph(&lone, edges, 0, 1));
        let (a, b) = (edge(0, 1, 2), edge(1, 2, 3));
        assert_eq!(with(&[a, b, edge(0, 2, 4)]), [0; 0]);
        assert_eq!(with(&[a, b, edge(0, 2, 5)]), [3]);
        assert_eq!(with(&[edge(0, 2, 6), b, a]), [1]);
        // The larger of two delays.
        assert_eq!(with(&[edge(0, 1, 7), edge(0, 1, 8)]), [2]);
        assert_eq!(with(&[edge(0, 1, 8), edge(0, 1, 7)]), [1]);
        assert_eq!(with(&[edge(0, 1, 8), edge(1, 0, 0)]), [0; 0]);
        // By way of processor edges, into the next turn too.
        let two = [(0, 1), (0, 1), (1, 1), (1, 1)];
        let crossed = [edge(0, 3, 1), edge(1, 2, 0)];
        assert_eq!(redundant_places(&graph(&two, &crossed, 0, 1)), [1]);
        let crossed = [edge(0, 3, 1), edge(1, 2, 1)];
        assert_eq!(redundant_places(&graph(&two, &crossed, 0, 1)), [1]);
        let crossed = [edge(0, 2, 1), edge(1, 3, 0)];
        assert_eq!(redundant_places(&graph(&two, &crossed, 0, 1)), [1]);
    }

    #[test]
    fn delays_go_round_a_processor() {
        // From the last task of processor 0 to the first of processor 1 by way of the next turn.
        let tasks = [(0, 1), (0, 1), (1, 1), (1, 1)];
        let desk = graph(&tasks, &[edge(0, 3, 255)], 0, 1);
        let least = least_delays(&desk);
        assert_eq!(least[0][3], Some(255));
        assert_eq!(least[0][2], Some(256));
        assert_eq!(least[1][2], Some(257));
        assert_eq!(least[1][1], Some(1));
        assert_eq!(least[3][0], None);
    }

    #[test]
    fn each_refusal_of_a_schedule() {
        let refusal = |change: fn(&mut Graph)| {
            let mut graph = desk();
            change(&mut graph);
            number(&graph)
        };
        assert_eq!(refusal(|g| g.edges[0] = edge(3, 0, 0)), 9);
        assert_eq!(refusal(|g| g.edges[0] = edge(3, 0, 1)), 0);
        assert_eq!(refusal(|g| g.edges = vec![edge(2, 0, 0)]), 10);
        assert_eq!(refusal(|g| g.input = 1), 10);
        assert_eq!(refusal(|g| g.input = 3), 10);
        assert_eq!(refusal(|g| g.output = 0), 11);
        assert_eq!(refusal(|g| g.edges.clear()), 11);
        assert_eq!(refusal(|g| g.bound = 0), 12);

        // The sequence.
        let mut graph = desk();
        (graph.input, graph.output, graph.bound) = (1, 1, 0);
        graph.edges.push(edge(3, 1, 0));
        assert_eq!(number(&graph), 9);
        graph.edges.pop();
        assert_eq!(number(&graph), 10);
        (graph.input, graph.output) = (0, 0);
        assert_eq!(number(&graph), 11);
        graph.output = 1;
        assert_eq!(number(&graph), 12);
        graph.bound = 5;
        assert_eq!(number(&graph), 0);
    }

    #[test]
    fn a_file_of_each_side_of_a_refusal() {
        let file = |graph: &Graph| crate::files::write_graph(&crate::files::GraphFields::of(graph));
        assert_eq!(accept_graph(&file(&desk())), Ok(desk()));
        assert_eq!(accept_graph(&file(&desk())[..24]), refuse(1, 0));
        let mut low = desk();
        low.bound = 8;
        assert_eq!(accept_graph(&file(&low)), refuse(12, 0));
    }

    #[test]
    fn marks_and_places() {
        for all in [&[][..], &[1], &[64, 65], &[1, 3, 128, 129, 256]] {
            assert_eq!(places(marks(all)), all);
        }
        assert_eq!(marks(&[1, 65, 256]), [1 << 63, 1 << 63, 0, 1]);
    }
}
