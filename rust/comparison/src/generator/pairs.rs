//! Graph files with proposal files for them, right ones and such with faults.

use super::damage::{BYTE_DAMAGES, GRAPH_DAMAGES, PROPOSAL_DAMAGES};
use super::desks::FAULTS;
use super::proposals::KINDS;
use super::Generator;
use checker::files::{write_graph, write_proposal, GraphFields, ProposalFields};
use checker::schedule;

impl Generator {
    /// A graph of 2 to 12 tasks with a bound near its latency, and a proposal for it. Either may have faults, of its edges, its fields
    /// or its bytes.
    pub fn pair_of_files(&mut self) -> (Vec<u8>, Vec<u8>) {
        let (task_count, edge_count) = (self.between(2, 12), self.between(0, 24));
        let mut graph = self.staged_graph(task_count, edge_count);
        graph.bound = schedule::latency(&graph) + self.between(0, 9);
        let kind = &KINDS[self.between(0, KINDS.len() - 1)];
        let proposed = (kind.make)(self, &graph).unwrap_or_default();

        let mut fields = ProposalFields::of(&proposed);
        if self.once_in(4) {
            let damage = PROPOSAL_DAMAGES[self.between(0, PROPOSAL_DAMAGES.len() - 1)].1;
            damage(self, &mut fields, task_count);
        }
        let mut proposal = write_proposal(&fields);
        self.damage_bytes_now_and_then(&mut proposal);

        if self.once_in(3) {
            FAULTS[self.between(0, FAULTS.len() - 1)].1(self, &mut graph);
        }
        let mut fields = GraphFields::of(&graph);
        if self.once_in(4) {
            GRAPH_DAMAGES[self.between(0, GRAPH_DAMAGES.len() - 1)].1(self, &mut fields);
        }
        let mut file = write_graph(&fields);
        self.damage_bytes_now_and_then(&mut file);
        (file, proposal)
    }

    fn damage_bytes_now_and_then(&mut self, file: &mut Vec<u8>) {
        if self.once_in(8) {
            BYTE_DAMAGES[self.between(0, BYTE_DAMAGES.len() - 1)].1(self, file);
        }
    }
}
