//! Measures the proved calls against the baseline, and prints tables in Markdown.
//!
//! `bench` measures, `bench --quick` with few samples; `bench --check` compares whole answers of both sides on many generated
//! files; `bench --stack` prints the bytes of stack that each call takes; `bench --files FOLDER` writes the graph files of the example
//! desk and the largest ones to a folder, for other programs to measure, and prints their paths.

mod check;
mod timing;

use comparison::measured::calls::{self, Call, Lists, CALLS};
use comparison::measured::desks::{self, Desk};
use comparison::measured::stack;
use std::path::Path;
use std::{fs, io};
use timing::{Manner, Pair};

fn main() {
    let words: Vec<String> = std::env::args().skip(1).collect();
    let words: Vec<&str> = words.iter().map(String::as_str).collect();
    match words[..] {
        [] => measure(&timing::FULL),
        ["--quick"] => measure(&timing::QUICK),
        ["--check"] => check::run(),
        ["--stack"] => print_stack(),
        ["--files", folder] => write_files(folder.as_ref()).expect("files written"),
        _ => {
            eprintln!("usage: bench [--quick | --check | --stack | --files FOLDER]");
            std::process::exit(2);
        }
    }
}

fn measure(manner: &Manner) {
    println!(
        "Each number is the median of {} samples, proved call and baseline in turn; a sample is a batch of calls of {} µs at least, \
         in the thread's own time. Lists are lent as the call before left them: nothing is cleared.\n",
        manner.samples, manner.least_micros
    );
    let mut worst: Option<(f64, String)> = None;
    println!("| call | desk | proved | baseline | ratio |");
    println!("|---|---|--:|--:|--:|");
    for call in &CALLS {
        for desk in desks::largest_and_example() {
            for case in call.cases(&desk) {
                let pair = measure_case(manner, call, &case);
                let name = format!("{} | {}", call.name, case.name);
                println!("| {name} | {pair} |");
                if worst
                    .as_ref()
                    .map_or(true, |(ratio, _)| pair.ratio() > *ratio)
                {
                    worst = Some((pair.ratio(), name));
                }
            }
        }
    }
    if let Some((ratio, name)) = worst {
        println!(
            "\nWorst ratio: {ratio:.2}, {}.",
            name.replace(" | ", " of ")
        );
    }
    growth(manner, "tasks, with 4 edges for each", &desks::by_tasks());
    growth(manner, "edges, with 64 tasks", &desks::by_edges());
}

/// A table with a column for each desk.
fn growth(manner: &Manner, of: &str, desks: &[(usize, Desk)]) {
    println!(
        "\nGrowth with the number of {of} (mixed delays, verdict on the graph's own edges; proved / baseline = ratio):\n"
    );
    let sizes: Vec<String> = desks.iter().map(|(size, _)| format!("| {size} ")).collect();
    println!("| call {}|", sizes.concat());
    println!("|---{}|", "|---".repeat(desks.len()));
    for call in &CALLS {
        print!("| {} ", call.name);
        for (_, desk) in desks {
            let case = &call.cases(desk)[0];
            let pair = measure_case(manner, call, case);
            print!("| {} ", pair.in_short());
        }
        println!("|");
    }
}

/// Compares the answers, then measures.
fn measure_case(manner: &Manner, call: &Call, case: &calls::Case) -> Pair {
    calls::compare(call, case);
    let (mut proved, mut baseline) = (Lists::default(), Lists::default());
    timing::measure(
        manner,
        || (call.proved)(case, &mut proved),
        || (call.baseline)(case, &mut baseline),
    )
}

fn print_stack() {
    println!("| call | desk | proved, bytes of stack | baseline |");
    println!("|---|---|--:|--:|");
    for call in &CALLS {
        let mut most = [0; 2];
        for desk in desks::largest_and_example() {
            for case in call.cases(&desk) {
                let mut lists = Lists::default();
                let proved = stack::taken(|| (call.proved)(&case, &mut lists));
                let baseline = stack::taken(|| (call.baseline)(&case, &mut lists));
                println!("| {} | {} | {proved} | {baseline} |", call.name, case.name);
                most = [most[0].max(proved), most[1].max(baseline)];
            }
        }
        println!("| {} | most | {} | {} |", call.name, most[0], most[1]);
    }
}

/// A file for each desk, named after it.
fn write_files(folder: &Path) -> io::Result<()> {
    fs::create_dir_all(folder)?;
    for desk in desks::largest_and_example() {
        let path = folder.join(format!("{}.bin", desk.name));
        fs::write(&path, desk.file)?;
        println!("{}", path.display());
    }
    Ok(())
}
