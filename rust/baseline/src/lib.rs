//! The six calls without proofs, written for speed, to measure the proved ones against.
//!
//! They give the answers of [`resync::raw`] field by field, and take no memory but the stack's.

mod delays;
mod files;
mod plans;
mod proposals;
mod redundancy;
mod schedule;
mod starts;

use resync::raw::{Edge, FiguresAnswer, PlanAnswer, RedundantAnswer, Refusal, VerdictAnswer};
use schedule::Graph;

/// A refusal of this number and place.
fn refuse<T>(number: u32, place: usize) -> Result<T, Refusal> {
    Err(Refusal {
        number,
        place: place as u32,
        ..Refusal::default()
    })
}

/// Tasks, edges and latency of a graph file.
pub fn figures(graph: &[u8]) -> FiguresAnswer {
    let accepted = Graph::new().accept(graph).map(|graph| FiguresAnswer {
        refusal: Refusal::default(),
        tasks: graph.tasks as u32,
        edges: graph.edges().len() as u32,
        latency: graph.latency,
    });
    accepted.unwrap_or_else(|refusal| FiguresAnswer {
        refusal,
        ..FiguresAnswer::default()
    })
}

/// Writes the least delays of a graph file to the front of the table, row by row, 65,535 for none.
pub fn least_delays(graph: &[u8], table: &mut [u16]) -> Refusal {
    let written = Graph::new().accept(graph).and_then(|graph| {
        let room = graph.tasks * graph.tasks;
        if table.len() < room {
            return refuse(16, 0);
        }
        delays::write(graph, &mut table[..room]);
        Ok(())
    });
    written.err().unwrap_or_default()
}

/// The redundant edges of a graph file.
pub fn redundant(graph: &[u8]) -> RedundantAnswer {
    let marks = Graph::new().accept(graph).map(redundancy::marks);
    match marks {
        Ok(words) => RedundantAnswer {
            refusal: Refusal::default(),
            words,
            count: words.iter().map(|word| word.count_ones()).sum(),
        },
        Err(refusal) => RedundantAnswer {
            refusal,
            ..RedundantAnswer::default()
        },
    }
}

/// Writes the earliest starts at the estimated times to the front of the list, turn by turn, tasks in order.
pub fn timetable(graph: &[u8], turns: u64, starts: &mut [u32]) -> Refusal {
    if !(1..=64).contains(&turns) {
        return refuse::<()>(17, 0).err().unwrap_or_default();
    }
    let turns = turns as usize;
    let written = Graph::new().accept(graph).and_then(|graph| {
        let room = graph.tasks * turns;
        if starts.len() < room {
            return refuse(16, 0);
        }
        starts::write(graph, turns, &mut starts[..room]);
        Ok(())
    });
    written.err().unwrap_or_default()
}

/// The verdict on a proposal file beside a graph file.
pub fn verdict(graph: &[u8], proposal: &[u8]) -> VerdictAnswer {
    let accepted = Graph::new()
        .accept(graph)
        .and_then(|graph| proposals::judge(graph, proposal));
    accepted.unwrap_or_else(|refusal| VerdictAnswer {
        refusal,
        ..VerdictAnswer::default()
    })
}

/// Writes the plan of a graph file to the front of the list: the feedforward edges left, file sequence first, then added ones.
pub fn plan(graph: &[u8], edges: &mut [Edge]) -> PlanAnswer {
    let planned = Graph::new().accept(graph).and_then(|graph| {
        if edges.len() < graph.edges().len() {
            return refuse(16, 0);
        }
        Ok(plans::write(graph, edges))
    });
    planned.unwrap_or_else(|refusal| PlanAnswer {
        refusal,
        ..PlanAnswer::default()
    })
}

#[cfg(test)]
mod tests {
    use resync::raw;

    const DESK: [u8; 25] = [
        0x08, 0x40, 0x18, 0x01, 0x80, 0x00, 0x0C, 0x00, 0x00, 0x20, 0x00, 0x03, 0x10, 0x00, 0x11,
        0x00, 0x04, 0x00, 0x20, 0x00, 0x43, 0x00, 0x00, 0x30, 0x00,
    ];
    const PROPOSAL: [u8; 5] = [0x08, 0x04, 0x04, 0x20, 0x00];

    /// Whole answers and whole lists of both sides, for all calls.
    fn compare(graph: &[u8], proposal: &[u8], turns: u64) {
        assert_eq!(crate::figures(graph), raw::figures(graph));
        assert_eq!(crate::redundant(graph), raw::redundant(graph));
        assert_eq!(
            crate::verdict(graph, proposal),
            raw::verdict(graph, proposal)
        );
        let (mut ours, mut theirs) = ([7; 18], [7; 18]);
        assert_eq!(
            crate::least_delays(graph, &mut ours),
            raw::least_delays(graph, &mut theirs)
        );
        assert_eq!(ours, theirs);
        let (mut ours, mut theirs) = ([7; 300], [7; 300]);
        assert_eq!(
            crate::timetable(graph, turns, &mut ours),
            raw::timetable(graph, turns, &mut theirs)
        );
        assert_eq!(ours, theirs);
        let mut ours = [raw::Edge::default(); 5];
        let mut theirs = ours;
        assert_eq!(crate::plan(graph, &mut ours), raw::plan(graph, &mut theirs));
        assert_eq!(ours, theirs);
    }

    #[test]
    fn the_example_desk() {
        for turns in [0, 1, 2, 7, 64, 65, u64::MAX] {
            compare(&DESK, &PROPOSAL, turns);
        }
    }

    /// 0→2, 2→3, 1→3, and 0→1 with delay 1: edges 2 and 4 lie on cycles.
    #[test]
    fn the_earliest_edge_on_a_cycle() {
        let proposal = [
            0x08, 0x10, 0x00, 0x20, 0x00, 0x83, 0x00, 0x04, 0x30, 0x00, 0x01, 0x01,
        ];
        compare(&DESK, &proposal, 1);
        let refusal = crate::verdict(&DESK, &proposal).refusal;
        assert_eq!((refusal.number, refusal.place), (13, 2));
    }

    #[test]
    fn the_example_desk_with_two_bits_flipped() {
        for one in 0..8 * DESK.len() {
            for other in one..8 * DESK.len() {
                let mut desk = DESK;
                desk[one / 8] ^= 0x80 >> (one % 8);
                if other != one {
                    desk[other / 8] ^= 0x80 >> (other % 8);
                }
                compare(&desk, &PROPOSAL, 3);
            }
        }
    }

    #[test]
    fn the_example_proposal_with_two_bits_flipped() {
        for one in 0..8 * PROPOSAL.len() {
            for other in one..8 * PROPOSAL.len() {
                let mut proposal = PROPOSAL;
                proposal[one / 8] ^= 0x80 >> (one % 8);
                if other != one {
                    proposal[other / 8] ^= 0x80 >> (other % 8);
                }
                compare(&DESK, &proposal, 1);
            }
        }
    }

    #[test]
    fn files_of_any_length() {
        let mut long = DESK.to_vec();
        long.resize(5000, 0);
        for length in (0..40).chain([4096, 5000]) {
            compare(&long[..length], &PROPOSAL, 1);
            compare(&DESK, &long[..length], 1);
        }
    }
}
