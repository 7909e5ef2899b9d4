//! Refusals: in numbers, in words, and by whose doing.

use std::fmt;

use crate::raw;

/// Why a call gave no answer. It changed no lent list.
///
/// In words ([`Display`](fmt::Display)), with the number in brackets: `proposal refused: edge 2's order is lost (14)`.
///
/// | Number | What is wrong | Place |
/// |---|---|---|
/// | 1 | fewer bytes than the header or the counts need | |
/// | 2 | version is not 1 | |
/// | 3 | tasks outside 2 to 64, or edges over 256 | |
/// | 4 | more bytes than the counts need, or a filling bit that is not 0 | |
/// | 5 | a task time of 0 | task, from 0 |
/// | 6 | a task number not below the count | edge; 0 for the header's input or output |
/// | 7 | a graph edge within one processor | edge |
/// | 8 | same source, sink and delay as an earlier edge | later edge |
/// | 9 | a cycle of total delay 0 | |
/// | 10 | the latency input has an incoming edge of delay 0 | |
/// | 11 | latency input equals output, or no path of delay 0 joins them | |
/// | 12 | the bound is below the graph's latency | |
/// | 13 | a proposed edge on a cycle of the result | first such edge of the proposal |
/// | 14 | an original order lost | first such edge of the graph |
/// | 15 | late: latency and margin are given | |
/// | 16 | a lent list too short | |
/// | 17 | turns outside 1 to 64 | |
///
/// Where several hold, the first in this sequence is given: 17; those of the graph, 1 to 12; 16; those of the proposal.
#[derive(Clone, Copy, Debug, PartialEq, Eq)]
#[non_exhaustive]
pub struct Refusal {
    /// What is refused.
    pub refused: Refused,
    /// The number in the list above.
    pub number: u32,
    /// Which task or edge it is about, as the list above says; 0 where it says nothing. Edges count from 1, tasks from 0.
    pub place: usize,
    /// The result's latency with 15, otherwise 0.
    pub latency: u32,
    /// Bound less latency, negative, with 15, otherwise 0.
    pub margin: i32,
}

/// What is refused.
///
/// The library's numbers 1 to 8 can be about either file of a [`verdict`](crate::verdict). The graph is judged first, so they are about the
/// proposal exactly if the graph alone is not refused; the verdict asks for the graph's figures to find out.
#[derive(Clone, Copy, Debug, PartialEq, Eq)]
pub enum Refused {
    /// The graph: its file (1 to 8), or the schedule in it (9 to 12).
    Graph,
    /// The proposal: its file (1 to 8), or the edges in it (13 to 15).
    Proposal,
    /// The call: a lent list (16) or the number of turns (17).
    Call,
}

/// Whose doing a refusal is.
#[derive(Clone, Copy, Debug, PartialEq, Eq)]
pub enum Cause {
    /// Whoever wrote the file (1 to 8).
    FileWriter,
    /// Whoever made the schedule (9 to 12).
    ScheduleMaker,
    /// Whoever made the proposal (13 to 15).
    ProposalMaker,
    /// The calling program (16, 17).
    Caller,
}

impl Refusal {
    /// Whose doing it is.
    pub fn cause(&self) -> Cause {
        match self.number {
            1..=8 => Cause::FileWriter,
            9..=12 => Cause::ScheduleMaker,
            13..=15 => Cause::ProposalMaker,
            _ => Cause::Caller,
        }
    }

    fn of(refused: Refused, answer: raw::Refusal) -> Refusal {
        Refusal {
            refused,
            number: answer.number,
            place: answer.place as usize,
            latency: answer.latency,
            margin: answer.margin,
        }
    }
}

/// The answer of a call that takes no proposal.
pub(crate) fn of_graph(answer: raw::Refusal) -> Result<(), Refusal> {
    match answer.number {
        0 => Ok(()),
        16 | 17 => Err(Refusal::of(Refused::Call, answer)),
        _ => Err(Refusal::of(Refused::Graph, answer)),
    }
}

/// The answer of the verdict on a proposal for this graph.
pub(crate) fn of_verdict(answer: raw::Refusal, graph: &[u8]) -> Result<(), Refusal> {
    let of_proposal = match answer.number {
        1..=8 => raw::figures(graph).refusal.number == 0,
        number => (13..=15).contains(&number),
    };
    if of_proposal {
        Err(Refusal::of(Refused::Proposal, answer))
    } else {
        of_graph(answer)
    }
}

impl fmt::Display for Refusal {
    fn fmt(&self, f: &mut fmt::Formatter) -> fmt::Result {
        write!(f, "{} refused: ", self.refused)?;
        let place = self.place;
        match (self.number, self.refused) {
            (1, _) => write!(f, "the file is too short for its header or counts"),
            (2, _) => write!(f, "the file's version is not 1"),
            (3, Refused::Proposal) => write!(f, "the edges are over 256"),
            (3, _) => write!(f, "the tasks are not 2 to 64, or the edges are over 256"),
            (4, _) => write!(
                f,
                "the file is too long for its counts, or a filling bit is not 0"
            ),
            (5, _) => write!(f, "task {place}'s time is 0"),
            (6, _) if place == 0 => write!(f, "the latency input or output is not a task"),
            (6, _) => write!(f, "edge {place}'s source or sink is not a task"),
            (7, _) => write!(f, "edge {place} lies within one processor"),
            (8, _) => write!(f, "edge {place} repeats an earlier one"),
            (9, _) => write!(f, "a cycle has a total delay of 0"),
            (10, _) => write!(f, "an edge of delay 0 leads to the latency input"),
            (11, _) => write!(
                f,
                "input and output are one task, or no path of delay 0 joins them"
            ),
            (12, _) => write!(f, "the bound is below the graph's latency"),
            (13, _) => write!(f, "edge {place} lies on a cycle"),
            (14, _) => write!(f, "edge {place}'s order is lost"),
            (15, _) => write!(f, "late, latency {}, margin {}", self.latency, self.margin),
            (16, _) => write!(f, "the lent list is too short"),
            (17, _) => write!(f, "the turns are not 1 to 64"),
            _ => write!(f, "no words for this number"),
        }?;
        write!(f, " ({})", self.number)
    }
}

impl fmt::Display for Refused {
    fn fmt(&self, f: &mut fmt::Formatter) -> fmt::Result {
        f.write_str(match self {
            Refused::Graph => "graph",
            Refused::Proposal => "proposal",
            Refused::Call => "call",
        })
    }
}

impl fmt::Display for Cause {
    fn fmt(&self, f: &mut fmt::Formatter) -> fmt::Result {
        f.write_str(match self {
            Cause::FileWriter => "whoever wrote the file",
            Cause::ScheduleMaker => "whoever made the schedule",
            Cause::ProposalMaker => "whoever made the proposal",
            Cause::Caller => "the calling program",
        })
    }
}

impl std::error::Error for Refusal {}

#[cfg(test)]
mod tests {
    use super::*;
    use Refused::{Call, Graph, Proposal};

    fn words(refused: Refused, number: u32, place: usize) -> String {
        let (latency, margin) = if number == 15 { (10, -1) } else { (0, 0) };
        let refusal = Refusal {
            refused,
            number,
            place,
            latency,
            margin,
        };
        refusal.to_string()
    }

    #[test]
    fn every_number_has_its_words() {
        let table = [
            (Graph, 1, 0, "graph refused: the file is too short for its header or counts (1)"),
            (Graph, 2, 0, "graph refused: the file's version is not 1 (2)"),
            (Graph, 3, 0, "graph refused: the tasks are not 2 to 64, or the edges are over 256 (3)"),
            (Graph, 4, 0, "graph refused: the file is too long for its counts, or a filling bit is not 0 (4)"),
            (Graph, 5, 0, "graph refused: task 0's time is 0 (5)"),
            (Graph, 5, 3, "graph refused: task 3's time is 0 (5)"),
            (Graph, 6, 0, "graph refused: the latency input or output is not a task (6)"),
            (Graph, 6, 2, "graph refused: edge 2's source or sink is not a task (6)"),
            (Graph, 7, 2, "graph refused: edge 2 lies within one processor (7)"),
            (Graph, 8, 4, "graph refused: edge 4 repeats an earlier one (8)"),
            (Graph, 9, 0, "graph refused: a cycle has a total delay of 0 (9)"),
            (Graph, 10, 0, "graph refused: an edge of delay 0 leads to the latency input (10)"),
            (Graph, 11, 0, "graph refused: input and output are one task, or no path of delay 0 joins them (11)"),
            (Graph, 12, 0, "graph refused: the bound is below the graph's latency (12)"),
            (Proposal, 1, 0, "proposal refused: the file is too short for its header or counts (1)"),
            (Proposal, 2, 0, "proposal refused: the file's version is not 1 (2)"),
            (Proposal, 3, 0, "proposal refused: the edges are over 256 (3)"),
            (Proposal, 4, 0, "proposal refused: the file is too long for its counts, or a filling bit is not 0 (4)"),
            (Proposal, 6, 1, "proposal refused: edge 1's source or sink is not a task (6)"),
            (Proposal, 8, 2, "proposal refused: edge 2 repeats an earlier one (8)"),
            (Proposal, 13, 1, "proposal refused: edge 1 lies on a cycle (13)"),
            (Proposal, 14, 2, "proposal refused: edge 2's order is lost (14)"),
            (Proposal, 15, 0, "proposal refused: late, latency 10, margin -1 (15)"),
            (Call, 16, 0, "call refused: the lent list is too short (16)"),
            (Call, 17, 0, "call refused: the turns are not 1 to 64 (17)"),
        ];
        for (refused, number, place, expected) in table {
            assert_eq!(words(refused, number, place), expected);
        }
        for number in 1..=17 {
            assert!(table.iter().any(|row| row.1 == number), "{number}");
        }
    }
}
