//! From a description to text.

use std::fmt;

use checker::files::Edge;

use crate::Description;

impl fmt::Display for Description {
    fn fmt(&self, f: &mut fmt::Formatter) -> fmt::Result {
        let graph = &self.graph;
        writeln!(f, "bound {}", graph.bound)?;
        writeln!(f, "input t{}", graph.input)?;
        writeln!(f, "output t{}", graph.output)?;
        writeln!(f)?;
        for (number, task) in graph.tasks.iter().enumerate() {
            let (processor, time) = (task.processor, task.time);
            writeln!(f, "task t{number} on {processor} time {time}")?;
        }
        if !graph.edges.is_empty() {
            writeln!(f)?;
            waits(f, &graph.edges)?;
        }
        if let Some(edges) = &self.proposal {
            writeln!(f, "\nproposal")?;
            waits(f, edges)?;
        }
        Ok(())
    }
}

/// A line for each wait, with its place as a comment, since refusals name it.
fn waits(f: &mut fmt::Formatter, edges: &[Edge]) -> fmt::Result {
    for (place, edge) in (1..).zip(edges) {
        let mut wait = format!("wait t{} -> t{}", edge.source, edge.sink);
        if edge.delay != 0 {
            wait += &format!(" delay {}", edge.delay);
        }
        writeln!(f, "{wait:<26}# {place}")?;
    }
    Ok(())
}
