//! The plan.

use crate::delays::{Known, Table, NONE};
use crate::files::{Arc, MOST_EDGES, MOST_TASKS};
use crate::redundancy::marks_of;
use crate::schedule::{ones, FirstTurn, Graph, Undelayed};
use resync::raw::{Edge, PlanAnswer, Refusal};

/// Writes the plan of an accepted graph. The list has room for the graph's edges.
pub fn write(graph: &Graph, list: &mut [Edge]) -> PlanAnswer {
    let mut known = Known::NOTHING;
    known.fill_from_0(graph);
    let delays = &known.rows;
    let mut left = Left::needed(graph, delays);
    let (steps, latency) = match (left.count, graph.tasks) {
        // A single edge is left as it is.
        (0..=1, _) => (0, graph.latency),
        (_, 0..=16) => take_steps::<16>(graph, &mut left, delays),
        (_, 17..=32) => take_steps::<32>(graph, &mut left, delays),
        _ => take_steps::<64>(graph, &mut left, delays),
    };
    for (to, arc) in list.iter_mut().zip(&left.arcs[..left.count]) {
        *to = Edge {
            source: arc.source() as u8,
            sink: arc.sink() as u8,
            delay: arc.delay() as u8,
        };
    }
    PlanAnswer {
        refusal: Refusal::default(),
        length: left.count as u32,
        steps,
        latency,
    }
}

/// Takes all steps, and returns their number and the latency then.
fn take_steps<const LANES: usize>(graph: &Graph, left: &mut Left, delays: &Table) -> (u32, u32) {
    let mut stage = Stage::<LANES>::first(graph, left, delays);
    let mut steps = 0;
    while let Some((source, sink)) = stage.best() {
        stage.step(source, sink);
        steps += 1;
    }
    (steps, stage.ends[graph.output] as u32)
}

/// The feedforward edges left.
struct Left {
    arcs: [Arc; MOST_EDGES],
    count: usize,
}

impl Left {
    /// Those of the file that are not redundant.
    fn needed(graph: &Graph, delays: &Table) -> Left {
        let marks = marks_of(graph, delays);
        let (mut arcs, mut count) = ([Arc(0); MOST_EDGES], 0);
        for (at, &arc) in graph.edges().iter().enumerate() {
            let redundant = marks[at / 64 % 4] >> (63 - at % 64) & 1 == 1;
            let feedback = delays[arc.sink()][arc.source()] != NONE;
            arcs[count % MOST_EDGES] = arc;
            count += usize::from(!redundant && !feedback);
        }
        Left { arcs, count }
    }
}

/// Least delays, where a task counts 0 to itself: a row for each source, and the same by sink.
#[derive(Clone)]
struct Delays<const LANES: usize> {
    from: [[i16; LANES]; LANES],
    to: [[i16; LANES]; LANES],
}

impl<const LANES: usize> Delays<LANES> {
    /// The front of a table that has no more tasks.
    fn of(table: &Table) -> Self {
        let mut delays = Delays {
            from: [[NONE; LANES]; LANES],
            to: [[NONE; LANES]; LANES],
        };
        for (source, (to, row)) in delays.from.iter_mut().zip(table).enumerate() {
            to.copy_from_slice(&row[..LANES]);
            for (sink, &delay) in to.iter().enumerate() {
                delays.to[sink][source] = delay;
            }
        }
        delays
    }
}

/// The plan so far.
struct Stage<'a, const LANES: usize> {
    graph: &'a Graph,
    left: &'a mut Left,
    delays: Delays<LANES>,
    /// How many edges left each pair subsumes, candidate or not: a row for each sink. Kept from step to step.
    counts: [[i16; LANES]; LANES],
    undelayed: Undelayed,
    /// Earliest ends in the first turn.
    ends: [i32; LANES],
    /// The latest starts with which the output ends by the bound; below 0 never.
    latest: [i32; LANES],
}

impl<'a, const LANES: usize> Stage<'a, LANES> {
    fn first(graph: &'a Graph, left: &'a mut Left, table: &Table) -> Self {
        let delays = Delays::of(table);
        let mut counts = [[0; LANES]; LANES];
        for &arc in &left.arcs[..left.count] {
            shift::<LANES, false, true>(&mut counts, arc, &delays, &delays);
        }
        let mut stage = Stage {
            graph,
            left,
            delays,
            counts,
            undelayed: graph.undelayed.clone(),
            ends: [0; LANES],
            latest: [0; LANES],
        };
        stage.time();
        stage
    }

    /// Earliest ends and latest starts of the first turn.
    fn time(&mut self) {
        let tasks = self.graph.tasks;
        let time = &self.graph.time;
        let mut turn = FirstTurn::new();
        let made = turn.fill(&self.undelayed, time, tasks);
        debug_assert!(made, "a candidate closes no cycle");
        for ((end, start), time) in self.ends.iter_mut().zip(turn.starts).zip(time) {
            *end = (start + time) as i32;
        }
        self.latest = [i32::MAX; LANES];
        let output = self.graph.output;
        self.latest[output] = self.graph.bound as i32 - time[output] as i32;
        for &task in turn.sequence[..tasks].iter().rev() {
            let task = task as usize % MOST_TASKS;
            let mut latest = self.latest[task];
            for sink in ones(self.undelayed.sinks[task]) {
                latest = latest.min(self.latest[sink] - time[task] as i32);
            }
            self.latest[task] = latest;
        }
    }

    /// The candidate that subsumes most edges, and two or more.
    fn best(&self) -> Option<(usize, usize)> {
        let mut best = (LANES, LANES);
        let mut most = 2;
        for sink in 0..self.graph.tasks {
            if largest(&self.counts[sink]) < most {
                continue;
            }
            let counts = self.candidates(sink);
            let count = largest(&counts);
            if count < most {
                continue;
            }
            let source = counts.iter().position(|&other| other == count);
            let pair = (source.unwrap_or(LANES), sink);
            if count > most || pair < best {
                (best, most) = (pair, count);
            }
        }
        (best.0 < LANES).then_some(best)
    }

    /// The counts of the candidates into a task, 0 for pairs that are none.
    fn candidates(&self, sink: usize) -> [i16; LANES] {
        let mut counts = self.counts[sink];
        for (count, &back) in counts.iter_mut().zip(&self.delays.from[sink]) {
            *count = if back == NONE { *count } else { 0 };
        }
        let latest = self.latest[sink];
        for (count, &end) in counts.iter_mut().zip(&self.ends) {
            *count = if end <= latest { *count } else { 0 };
        }
        counts
    }

    /// Adds a candidate and drops what it subsumes.
    fn step(&mut self, source: usize, sink: usize) {
        let old = self.delays.clone();
        let (before, after) = (&old.to[source], &old.from[sink]);
        let mut changed_from = [i16::MAX; LANES];
        let mut changed_to = [i16::MAX; LANES];
        for task in 0..self.graph.tasks {
            if before[task] != NONE {
                changed_from[task] = lower(&mut self.delays.from[task], after, before[task]);
            }
            if after[task] != NONE {
                changed_to[task] = lower(&mut self.delays.to[task], before, after[task]);
            }
        }

        let mut kept = 0;
        for at in 0..self.left.count {
            let arc = self.left.arcs[at];
            let most = arc.delay() as i16;
            if before[arc.source()] + after[arc.sink()] <= most {
                shift::<LANES, true, false>(&mut self.counts, arc, &old, &self.delays);
                continue;
            }
            self.left.arcs[kept] = arc;
            kept += 1;
            if changed_from[arc.source()].min(changed_to[arc.sink()]) <= most {
                shift::<LANES, true, true>(&mut self.counts, arc, &old, &self.delays);
            }
        }
        let added = Arc::undelayed(source, sink);
        shift::<LANES, false, true>(&mut self.counts, added, &old, &self.delays);
        self.left.arcs[kept] = added;
        self.left.count = kept + 1;

        // What is dropped stays among the edges of delay 0: a path over the new edge takes as long.
        self.undelayed.sinks[source] |= 1 << sink;
        self.undelayed.sources[sink] |= 1 << source;
        let time = |task: usize| self.graph.time[task] as i32;
        let later = self.ends[source] > self.ends[sink] - time(sink);
        let sooner = self.latest[source] > self.latest[sink] - time(source);
        if later || sooner {
            self.time();
        }
    }
}

/// Changes the counts by what an edge adds with the new delays, if `IS`, and what it added with the old, if `WAS`.
#[inline(always)]
fn shift<const LANES: usize, const WAS: bool, const IS: bool>(
    counts: &mut [[i16; LANES]; LANES],
    arc: Arc,
    old: &Delays<LANES>,
    new: &Delays<LANES>,
) {
    let (source, sink, most) = (arc.source(), arc.sink(), arc.delay() as i16);
    let (old_row, new_row) = (&old.from[source], &new.from[source]);
    let same = WAS && IS && old_row == new_row;
    // Delays only fall, so what was within the delay is still.
    for task in ones(within(&new.to[sink], most)) {
        let old_rest = most - old.to[sink][task];
        let new_rest = most - new.to[sink][task];
        if same && old_rest == new_rest {
            continue;
        }
        for ((count, &old), &new) in counts[task].iter_mut().zip(old_row).zip(new_row) {
            if WAS {
                *count -= i16::from(old <= old_rest);
            }
            if IS {
                *count += i16::from(new <= new_rest);
            }
        }
    }
}

/// Which delays are at most this, as a word.
#[inline(always)]
fn within<const LANES: usize>(delays: &[i16; LANES], most: i16) -> u64 {
    let mut flags = [0_u8; LANES];
    for (flag, &delay) in flags.iter_mut().zip(delays) {
        *flag = u8::from(delay <= most);
    }
    let mut word = 0;
    for (at, eight) in flags.chunks_exact(8).enumerate() {
        let eight = u64::from_le_bytes(eight.try_into().expect("eight bytes"));
        // The product gathers the lowest bits of eight bytes in its highest byte.
        let gathered = eight.wrapping_mul(0x0102_0408_1020_4080) >> 56;
        word |= gathered << (8 * at);
    }
    word
}

/// Lowers a row to another and so much more. Returns the least delay that is new; the largest number if there is none.
#[inline(always)]
fn lower<const LANES: usize>(row: &mut [i16; LANES], other: &[i16; LANES], more: i16) -> i16 {
    let mut least = i16::MAX;
    for (to, from) in row.iter_mut().zip(other) {
        let sum = from + more;
        least = least.min(if sum < *to { sum } else { i16::MAX });
        *to = (*to).min(sum);
    }
    least
}

fn largest<const LANES: usize>(counts: &[i16; LANES]) -> i16 {
    counts.iter().fold(0, |most, &count| most.max(count))
}
