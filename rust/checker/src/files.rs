//! An independent reader of the two files, to compare the proved one with.
//!
//! It is written from document 01 alone, as plainly as possible and without regard to speed: the file becomes a list
//! of bits, and fields are taken off its front. It shares no code with the other side.

/// A task: its processor and its estimated time.
#[derive(Clone, Copy, Debug, PartialEq, Eq)]
pub struct Task {
    pub processor: usize,
    pub time: usize,
}

/// An edge from task `source` to task `sink`.
#[derive(Clone, Copy, Debug, PartialEq, Eq, PartialOrd, Ord)]
pub struct Edge {
    pub source: usize,
    pub sink: usize,
    pub delay: usize,
}

/// A graph as its file gives it: `edges` are the synchronization edges, in the file's sequence.
#[derive(Clone, Debug, PartialEq, Eq)]
pub struct Graph {
    pub tasks: Vec<Task>,
    pub edges: Vec<Edge>,
    pub input: usize,
    pub output: usize,
    pub bound: usize,
}

/// Document 01's number of a refusal, and its place (0 where 01 names none).
#[derive(Clone, Copy, Debug, PartialEq, Eq)]
pub struct Refusal {
    pub number: usize,
    pub place: usize,
}

pub(crate) fn refuse<T>(number: usize, place: usize) -> Result<T, Refusal> {
    Err(Refusal { number, place })
}

/// Reads a graph file and judges it as far as refusal 8.
pub fn read_graph(file: &[u8]) -> Result<Graph, Refusal> {
    // "header 1, 2, 3"
    if file.len() < 7 {
        return refuse(1, 0);
    }
    let mut bits = Bits::of(file);
    let version = bits.take(5);
    let task_count = bits.take(7);
    let edge_count = bits.take(9);
    let input = bits.take(6);
    let output = bits.take(6);
    let bound = bits.take(23);
    if version != 1 {
        return refuse(2, 0);
    }
    if !(2..=64).contains(&task_count) || edge_count > 256 {
        return refuse(3, 0);
    }

    // "length 1 or 4"
    let needed_bits = (5 + 7 + 9 + 6 + 6 + 23) + task_count * (4 + 16) + edge_count * (6 + 6 + 8);
    let needed_bytes = bytes_for(needed_bits);
    if file.len() < needed_bytes {
        return refuse(1, 0);
    }
    if file.len() > needed_bytes {
        return refuse(4, 0);
    }

    let mut tasks = Vec::new();
    for _ in 0..task_count {
        let processor = bits.take(4);
        let time = bits.take(16);
        tasks.push(Task { processor, time });
    }
    let edges = take_edges(&mut bits, edge_count);

    // "filling 4"
    if bits.one_is_left() {
        return refuse(4, 0);
    }

    // "header 6"
    if input >= task_count || output >= task_count {
        return refuse(6, 0);
    }

    // "tasks 5"; the place is the task number, from 0
    for (number, task) in tasks.iter().enumerate() {
        if task.time == 0 {
            return refuse(5, number);
        }
    }

    // "each edge 6 then 7"; places count from 1
    for (index, edge) in edges.iter().enumerate() {
        if edge.source >= task_count || edge.sink >= task_count {
            return refuse(6, index + 1);
        }
        if tasks[edge.source].processor == tasks[edge.sink].processor {
            return refuse(7, index + 1);
        }
    }

    // "then 8"
    if let Some(place) = first_repeated(&edges) {
        return refuse(8, place);
    }

    Ok(Graph {
        tasks,
        edges,
        input,
        output,
        bound,
    })
}

/// Reads a proposal file for a graph of so many tasks and judges it as far as refusal 8.
pub fn read_proposal(file: &[u8], tasks: usize) -> Result<Vec<Edge>, Refusal> {
    // "header 1, 2, 3"; a proposal has no number of tasks, so 3 is for its edges alone
    if file.len() < 2 {
        return refuse(1, 0);
    }
    let mut bits = Bits::of(file);
    let version = bits.take(5);
    let edge_count = bits.take(9);
    let two_zero_bits = bits.take(2);
    if version != 1 {
        return refuse(2, 0);
    }
    if edge_count > 256 {
        return refuse(3, 0);
    }

    // "length 1 or 4"
    let needed_bits = (5 + 9 + 2) + edge_count * (6 + 6 + 8);
    let needed_bytes = bytes_for(needed_bits);
    if file.len() < needed_bytes {
        return refuse(1, 0);
    }
    if file.len() > needed_bytes {
        return refuse(4, 0);
    }

    let edges = take_edges(&mut bits, edge_count);

    // "its two zero bits and filling 4"
    if two_zero_bits != 0 || bits.one_is_left() {
        return refuse(4, 0);
    }

    // "each edge 6"; places count from 1
    for (index, edge) in edges.iter().enumerate() {
        if edge.source >= tasks || edge.sink >= tasks {
            return refuse(6, index + 1);
        }
    }

    // "then 8"
    if let Some(place) = first_repeated(&edges) {
        return refuse(8, place);
    }

    Ok(edges)
}

/// "delay 0 from each task to the next on its processor, and delay 1 from the last to the first (a lone task has an edge to
/// itself)." One edge out of each task, in ascending task number.
pub fn processor_edges(graph: &Graph) -> Vec<Edge> {
    let mut edges = Vec::new();
    for source in 0..graph.tasks.len() {
        let processor = graph.tasks[source].processor;
        let on_it: Vec<usize> = (0..graph.tasks.len())
            .filter(|&task| graph.tasks[task].processor == processor)
            .collect();
        let edge = match on_it.iter().find(|&&task| task > source) {
            Some(&next) => Edge {
                source,
                sink: next,
                delay: 0,
            },
            None => Edge {
                source,
                sink: on_it[0],
                delay: 1,
            },
        };
        edges.push(edge);
    }
    edges
}

fn take_edges(bits: &mut Bits, count: usize) -> Vec<Edge> {
    let mut edges = Vec::new();
    for _ in 0..count {
        let source = bits.take(6);
        let sink = bits.take(6);
        let delay = bits.take(8);
        edges.push(Edge {
            source,
            sink,
            delay,
        });
    }
    edges
}

/// Place, from 1, of the first edge that equals an earlier one.
fn first_repeated(edges: &[Edge]) -> Option<usize> {
    for later in 0..edges.len() {
        if edges[..later].contains(&edges[later]) {
            return Some(later + 1);
        }
    }
    None
}

/// A file as a list of bits, the most significant bit of each byte first, and how many have been taken.
struct Bits {
    all: Vec<bool>,
    taken: usize,
}

impl Bits {
    fn of(file: &[u8]) -> Bits {
        let mut all = Vec::new();
        for byte in file {
            for mask in [128, 64, 32, 16, 8, 4, 2, 1] {
                all.push(byte & mask != 0);
            }
        }
        Bits { all, taken: 0 }
    }

    /// The number that the next `width` bits write in binary.
    fn take(&mut self, width: usize) -> usize {
        let mut value = 0;
        for _ in 0..width {
            value = 2 * value + usize::from(self.all[self.taken]);
            self.taken += 1;
        }
        value
    }

    fn one_is_left(&self) -> bool {
        self.all[self.taken..].contains(&true)
    }
}

/// Whatever a graph file is to hold, for tests. Any value will do, and the lists need not have the lengths that the counts give.
/// Of each number only as many low bits are written as its field has.
#[derive(Clone, Debug)]
pub struct GraphFields {
    pub version: usize,
    pub task_count: usize,
    pub edge_count: usize,
    pub input: usize,
    pub output: usize,
    pub bound: usize,
    pub tasks: Vec<Task>,
    pub edges: Vec<Edge>,
    /// Goes into the bits that fill the last byte, if there are any.
    pub filling: usize,
}

impl GraphFields {
    /// The fields of this graph's file, as they ought to be.
    pub fn of(graph: &Graph) -> GraphFields {
        GraphFields {
            version: 1,
            task_count: graph.tasks.len(),
            edge_count: graph.edges.len(),
            input: graph.input,
            output: graph.output,
            bound: graph.bound,
            tasks: graph.tasks.clone(),
            edges: graph.edges.clone(),
            filling: 0,
        }
    }
}

/// Whatever a proposal file is to hold, for tests, as with [`GraphFields`].
#[derive(Clone, Debug)]
pub struct ProposalFields {
    pub version: usize,
    pub edge_count: usize,
    pub two_zero_bits: usize,
    pub edges: Vec<Edge>,
    /// Goes into the bits that fill the last byte, if there are any.
    pub filling: usize,
}

impl ProposalFields {
    /// The fields of these edges' file, as they ought to be.
    pub fn of(edges: &[Edge]) -> ProposalFields {
        ProposalFields {
            version: 1,
            edge_count: edges.len(),
            two_zero_bits: 0,
            edges: edges.to_vec(),
            filling: 0,
        }
    }
}

/// The graph file with these fields, right or wrong.
pub fn write_graph(fields: &GraphFields) -> Vec<u8> {
    let mut bits = Vec::new();
    put(&mut bits, fields.version, 5);
    put(&mut bits, fields.task_count, 7);
    put(&mut bits, fields.edge_count, 9);
    put(&mut bits, fields.input, 6);
    put(&mut bits, fields.output, 6);
    put(&mut bits, fields.bound, 23);
    for task in &fields.tasks {
        put(&mut bits, task.processor, 4);
        put(&mut bits, task.time, 16);
    }
    put_edges(&mut bits, &fields.edges);
    bytes(bits, fields.filling)
}

/// The proposal file with these fields, right or wrong.
pub fn write_proposal(fields: &ProposalFields) -> Vec<u8> {
    let mut bits = Vec::new();
    put(&mut bits, fields.version, 5);
    put(&mut bits, fields.edge_count, 9);
    put(&mut bits, fields.two_zero_bits, 2);
    put_edges(&mut bits, &fields.edges);
    bytes(bits, fields.filling)
}

fn put_edges(bits: &mut Vec<bool>, edges: &[Edge]) {
    for edge in edges {
        put(bits, edge.source, 6);
        put(bits, edge.sink, 6);
        put(bits, edge.delay, 8);
    }
}

/// Adds the low `width` bits of the value, the most significant first.
fn put(bits: &mut Vec<bool>, value: usize, width: usize) {
    for position in (0..width).rev() {
        bits.push((value >> position) & 1 == 1);
    }
}

/// How many bytes so many bits take.
pub fn bytes_for(bits: usize) -> usize {
    (bits + 7) / 8
}

/// Bytes of the bits, the last one filled up with the low bits of `filling`.
fn bytes(mut bits: Vec<bool>, filling: usize) -> Vec<u8> {
    let missing = bytes_for(bits.len()) * 8 - bits.len();
    put(&mut bits, filling, missing);
    let mut bytes = Vec::new();
    for eight in bits.chunks(8) {
        let mut byte = 0;
        for &bit in eight {
            byte = 2 * byte + u8::from(bit);
        }
        bytes.push(byte);
    }
    bytes
}

#[cfg(test)]
mod tests {
    use super::*;
    use crate::example::{desk, edge};

    const DESK: [u8; 25] = [
        0x08, 0x40, 0x18, 0x01, 0x80, 0x00, 0x0C, 0x00, 0x00, 0x20, 0x00, 0x03, 0x10, 0x00, 0x11,
        0x00, 0x04, 0x00, 0x20, 0x00, 0x43, 0x00, 0x00, 0x30, 0x00,
    ];
    const PROPOSAL: [u8; 5] = [0x08, 0x04, 0x04, 0x20, 0x00];

    fn graph_refusal(fields: &GraphFields) -> (usize, usize) {
        let refusal = read_graph(&write_graph(fields)).expect_err("nothing was refused");
        (refusal.number, refusal.place)
    }

    fn proposal_refusal(fields: &ProposalFields, tasks: usize) -> (usize, usize) {
        let refusal =
            read_proposal(&write_proposal(fields), tasks).expect_err("nothing was refused");
        (refusal.number, refusal.place)
    }

    #[test]
    fn example_desk_is_read_and_written() {
        assert_eq!(read_graph(&DESK), Ok(desk()));
        assert_eq!(write_graph(&GraphFields::of(&desk())), DESK);
    }

    #[test]
    fn example_proposal_is_read_and_written() {
        assert_eq!(read_proposal(&PROPOSAL, 4), Ok(vec![edge(1, 2, 0)]));
        assert_eq!(
            write_proposal(&ProposalFields::of(&[edge(1, 2, 0)])),
            PROPOSAL
        );
    }

    #[test]
    fn processor_edges_go_round_each_processor() {
        let expected = [edge(0, 1, 0), edge(1, 0, 1), edge(2, 3, 0), edge(3, 2, 1)];
        assert_eq!(processor_edges(&desk()), expected);

        let mut graph = desk();
        graph.tasks[0].processor = 7;
        graph.tasks[1].processor = 15;
        graph.tasks[2].processor = 7;
        graph.tasks[3].processor = 7;
        let expected = [edge(0, 2, 0), edge(1, 1, 1), edge(2, 3, 0), edge(3, 0, 1)];
        assert_eq!(processor_edges(&graph), expected);
    }

    #[test]
    fn fields_cross_byte_ends_most_significant_bit_first() {
        let mut bits = Bits::of(&[0b1010_0110, 0b0000_0001, 0b1000_0000]);
        assert_eq!(bits.take(3), 0b101);
        assert_eq!(bits.take(1), 0);
        assert_eq!(bits.take(13), 0b0_1100_0000_0011);
        assert!(!bits.one_is_left());
    }

    #[test]
    fn writing_cuts_values_to_their_fields() {
        let mut bits = Vec::new();
        put(&mut bits, 0b1_0110, 4);
        assert_eq!(bits, [false, true, true, false]);
        assert_eq!(bytes(bits, 0b11_1001), [0b0110_1001]);
    }

    #[test]
    fn lengths_of_the_largest_files() {
        let mut fields = GraphFields::of(&desk());
        fields.tasks = vec![fields.tasks[0]; 64];
        fields.edges = vec![fields.edges[0]; 256];
        assert_eq!(write_graph(&fields).len(), 807);
        assert_eq!(
            write_proposal(&ProposalFields::of(&fields.edges)).len(),
            642
        );
    }

    #[test]
    fn each_refusal_of_a_graph() {
        let good = GraphFields::of(&desk());
        let refusal = |change: fn(&mut GraphFields)| {
            let mut fields = good.clone();
            change(&mut fields);
            graph_refusal(&fields)
        };
        assert_eq!(refusal(|f| f.version = 0), (2, 0));
        assert_eq!(refusal(|f| f.task_count = 1), (3, 0));
        assert_eq!(refusal(|f| f.task_count = 65), (3, 0));
        assert_eq!(refusal(|f| f.edge_count = 257), (3, 0));
        assert_eq!(refusal(|f| f.edge_count = 4), (1, 0));
        assert_eq!(refusal(|f| f.edge_count = 2), (4, 0));
        assert_eq!(refusal(|f| f.filling = 8), (4, 0));
        assert_eq!(refusal(|f| f.input = 4), (6, 0));
        assert_eq!(refusal(|f| f.output = 4), (6, 0));
        assert_eq!(refusal(|f| f.tasks[0].time = 0), (5, 0));
        assert_eq!(refusal(|f| f.tasks[3].time = 0), (5, 3));
        assert_eq!(refusal(|f| f.edges[0].source = 4), (6, 1));
        assert_eq!(refusal(|f| f.edges[2].sink = 63), (6, 3));
        assert_eq!(refusal(|f| f.edges[1].sink = 1), (7, 2));
        assert_eq!(refusal(|f| f.edges[1].sink = 0), (7, 2));
        assert_eq!(refusal(|f| f.edges[2] = f.edges[0]), (8, 3));
        assert_eq!(read_graph(&[]), refuse(1, 0));
        assert_eq!(read_graph(&DESK[..6]), refuse(1, 0));
        assert_eq!(read_graph(&DESK[..24]), refuse(1, 0));
        assert_eq!(read_graph(&[&DESK[..], &[0]].concat()), refuse(4, 0));
    }

    #[test]
    fn each_refusal_of_a_proposal() {
        let good = ProposalFields::of(&[edge(1, 2, 0), edge(0, 3, 1), edge(1, 1, 0)]);
        let refusal = |change: fn(&mut ProposalFields)| {
            let mut fields = good.clone();
            change(&mut fields);
            proposal_refusal(&fields, 4)
        };
        assert!(read_proposal(&write_proposal(&good), 4).is_ok());
        assert_eq!(refusal(|f| f.version = 2), (2, 0));
        assert_eq!(refusal(|f| f.edge_count = 257), (3, 0));
        assert_eq!(refusal(|f| f.edge_count = 4), (1, 0));
        assert_eq!(refusal(|f| f.edge_count = 2), (4, 0));
        assert_eq!(refusal(|f| f.two_zero_bits = 1), (4, 0));
        assert_eq!(refusal(|f| f.two_zero_bits = 2), (4, 0));
        assert_eq!(refusal(|f| f.filling = 1), (4, 0));
        assert_eq!(refusal(|f| f.edges[0].source = 4), (6, 1));
        assert_eq!(refusal(|f| f.edges[2].sink = 4), (6, 3));
        assert_eq!(refusal(|f| f.edges[2] = f.edges[1]), (8, 3));
        assert_eq!(proposal_refusal(&good, 3), (6, 2));
        assert_eq!(proposal_refusal(&good, 0), (6, 1));
        assert_eq!(read_proposal(&[], 4), refuse(1, 0));
        assert_eq!(read_proposal(&PROPOSAL[..1], 4), refuse(1, 0));
        assert_eq!(read_proposal(&PROPOSAL[..4], 4), refuse(1, 0));
        assert_eq!(
            read_proposal(&[&PROPOSAL[..], &[0]].concat(), 4),
            refuse(4, 0)
        );
    }

    #[test]
    fn an_earlier_edge_comes_first() {
        let mut fields = GraphFields::of(&desk());
        fields.edges[1].sink = 0;
        fields.edges[2].sink = 4;
        assert_eq!(graph_refusal(&fields), (7, 2));
        fields.edges[0].sink = 4;
        assert_eq!(graph_refusal(&fields), (6, 1));
    }

    #[test]
    fn the_first_later_equal_edge_is_named() {
        let (a, b) = (edge(0, 2, 0), edge(0, 2, 1));
        assert_eq!(first_repeated(&[a, b]), None);
        assert_eq!(first_repeated(&[a, b, b, a]), Some(3));
        assert_eq!(first_repeated(&[a, a, a]), Some(2));
    }
}
