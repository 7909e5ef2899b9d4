//! The stack that the calls take, against the number that `include/resync.h` promises. What is measured is the library as it is compiled
//! now, on the desks of the benchmarks; nothing is proved of it.

use comparison::generator::desk::print;
use comparison::measured::calls::{Lists, CALLS};
use comparison::measured::{desks, stack};

const HEADER: &str = include_str!("../../../include/resync.h");

fn promised() -> usize {
    let mut numbers = HEADER
        .lines()
        .filter_map(|line| line.strip_prefix("#define RESYNC_STACK_BYTES "));
    let number = numbers.next().expect("the header promises a number");
    assert_eq!(numbers.next(), None, "two numbers");
    number.parse().expect("a decimal number")
}

/// Proposals that are accepted or refused, and plans of many steps, are among the cases.
#[test]
fn no_call_takes_more_than_the_header_promises() {
    let promised = promised();
    let growing = desks::by_tasks().into_iter().chain(desks::by_edges());
    let mut all = desks::largest_and_example();
    all.extend(growing.map(|(_, desk)| desk));
    let mut lines = format!("\nbytes of stack at most, {promised} promised:");
    for call in &CALLS {
        let mut most = 0;
        for case in all.iter().flat_map(|desk| call.cases(desk)) {
            let mut lists = Lists::default();
            let taken = stack::taken(|| (call.proved)(&case, &mut lists));
            let name = call.name;
            assert!(taken <= promised, "{name} of {}: {taken}", case.name);
            most = most.max(taken);
        }
        lines += &format!(" {} {most};", call.name);
    }
    print(&lines);
}
