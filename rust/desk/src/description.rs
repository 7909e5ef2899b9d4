//! A desk between its text and its files.

use std::fmt;

use checker::files::{
    read_graph, read_proposal, write_graph, write_proposal, Edge, Graph, GraphFields,
    ProposalFields, Refusal,
};

/// What a description says, without the names: a graph, and perhaps a proposal for it.
///
/// It is read from text by [`str::parse`] and printed by [`Display`](fmt::Display).
#[derive(Clone, Debug, PartialEq, Eq)]
pub struct Description {
    pub graph: Graph,
    pub proposal: Option<Vec<Edge>>,
}

/// The bytes of the two files.
#[derive(Clone, Debug, PartialEq, Eq)]
pub struct Files {
    pub graph: Vec<u8>,
    pub proposal: Option<Vec<u8>>,
}

/// A file that no description stands for: its name, and its refusal of 1 to 8.
#[derive(Clone, Copy, Debug, PartialEq, Eq)]
pub struct Refused {
    pub file: &'static str,
    pub refusal: Refusal,
}

impl Description {
    /// The files of this desk.
    pub fn files(&self) -> Files {
        Files {
            graph: write_graph(&GraphFields::of(&self.graph)),
            proposal: self
                .proposal
                .as_ref()
                .map(|edges| write_proposal(&ProposalFields::of(edges))),
        }
    }

    /// The desk of these files.
    pub fn of(files: &Files) -> Result<Description, Refused> {
        let refused = |file| move |refusal| Refused { file, refusal };
        let graph = read_graph(&files.graph).map_err(refused("graph.bin"))?;
        let proposal = files
            .proposal
            .as_ref()
            .map(|bytes| read_proposal(bytes, graph.tasks.len()))
            .transpose()
            .map_err(refused("proposal.bin"))?;
        Ok(Description { graph, proposal })
    }
}

impl fmt::Display for Refused {
    fn fmt(&self, f: &mut fmt::Formatter) -> fmt::Result {
        let Refusal { number, place } = self.refusal;
        write!(f, "{} gets refusal {number}", self.file)?;
        if number >= 5 {
            write!(f, " at place {place}")?;
        }
        f.write_str(match number {
            1 => ": too few bytes",
            2 => ": the version is not 1",
            3 => ": not 2 to 64 tasks, or over 256 waits",
            4 => ": too many bytes, or a filling bit that is not 0",
            5 => ": a task's time is 0",
            6 => ": no such task",
            7 => ": a wait within one processor",
            8 => ": an earlier wait again",
            _ => "",
        })
    }
}
