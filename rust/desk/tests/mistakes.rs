//! Descriptions with something wrong: the line is named, and nothing panics.

mod example;
mod random;

use desk::Description;
use example::EXAMPLE;
use random::Random;

fn told(text: &str) -> String {
    let desk: Result<Description, _> = text.parse();
    desk.expect_err("nothing is wrong").to_string()
}

/// The example desk with one line in another's place.
fn with(line: usize, instead: &str) -> String {
    let mut lines: Vec<&str> = EXAMPLE.lines().collect();
    lines[line - 1] = instead;
    lines.join("\n")
}

#[test]
fn each_kind_has_its_line_and_words() {
    let table = [
        (1, "bound", "line 1: this line is written `bound UNITS`"),
        (1, "bound 8388608", "line 1: a bound is 0 to 8388607, not \"8388608\""),
        (1, "bound -1", "line 1: a bound is 0 to 8388607, not \"-1\""),
        (1, "bound +1", "line 1: a bound is 0 to 8388607, not \"+1\""),
        (1, "bound 99999999999999999999999", "line 1: a bound is 0 to 8388607, not \"99999999999999999999999\""),
        (1, "bound \u{1b}[31m", "line 1: a bound is 0 to 8388607, not \"\\u{1b}[31m\""),
        (1, "# bound 12", "line 15: the description ends without `bound`"),
        (2, "", "line 15: the description ends without `input`"),
        (3, "", "line 15: the description ends without `output`"),
        (4, "bound 12", "line 4: `bound` stands twice"),
        (4, "input mic", "line 4: `input` stands twice"),
        (4, "output mic", "line 4: `output` stands twice"),
        (2, "input", "line 2: this line is written `input TASK`"),
        (3, "output mix gate", "line 3: this line is written `output TASK`"),
        (2, "input mike", "line 2: no task is called \"mike\""),
        (3, "output 4", "line 3: no task is called \"4\""),
        (3, "output -1", "line 3: no task is called \"-1\""),
        (3, "output +1", "line 3: no task is called \"+1\""),
        (6, "task eq", "line 6: this line is written `task NAME on PROCESSOR time UNITS`"),
        (6, "task eq on 0 time", "line 6: this line is written `task NAME on PROCESSOR time UNITS`"),
        (6, "task eq time 3 on 0", "line 6: this line is written `task NAME on PROCESSOR time UNITS`"),
        (6, "task eq on 16 time 3", "line 6: a processor is 0 to 15, not \"16\""),
        (6, "task eq on x time 3", "line 6: a processor is 0 to 15, not \"x\""),
        (6, "task eq on 0 time 0", "line 6: a time is 1 to 65535, not \"0\""),
        (6, "task eq on 0 time 65536", "line 6: a time is 1 to 65535, not \"65536\""),
        (6, "task eq on 0 time 2.5", "line 6: a time is 1 to 65535, not \"2.5\""),
        (6, "task mic on 0 time 3", "line 6: two tasks are named \"mic\""),
        (6, "task 1 on 0 time 3", "line 6: \"1\" is no name: a letter, then letters, digits, `_`, `-` or `.`"),
        (6, "task eq! on 0 time 3", "line 6: \"eq!\" is no name: a letter, then letters, digits, `_`, `-` or `.`"),
        (10, "wait mic gate", "line 10: this line is written `wait SOURCE -> SINK` or `wait SOURCE -> SINK delay TURNS`"),
        (10, "wait mic -> gate -> mix", "line 10: this line is written `wait SOURCE -> SINK` or `wait SOURCE -> SINK delay TURNS`"),
        (10, "wait mic -> gate delay", "line 10: this line is written `wait SOURCE -> SINK` or `wait SOURCE -> SINK delay TURNS`"),
        (10, "wait mic -> gate delay 256", "line 10: a delay is 0 to 255, not \"256\""),
        (10, "wait mike -> gate", "line 10: no task is called \"mike\""),
        (10, "wait mic -> 4", "line 10: no task is called \"4\""),
        (10, "wait mic -> eq", "line 10: both tasks are on processor 0"),
        (10, "wait mic -> 0", "line 10: both tasks are on processor 0"),
        (11, "wait 0 -> 2 delay 0", "line 11: the wait of line 10 again"),
        (9, "proposal", "line 14: only waits stand after `proposal`"),
        (15, "bound 12", "line 15: only waits stand after `proposal`"),
        (15, "task fx on 0 time 1", "line 15: only waits stand after `proposal`"),
        (14, "proposal 1", "line 14: this line is written `proposal`"),
        (15, "wait eq -> gait", "line 15: no task is called \"gait\""),
        (15, "wait eq -> gate\nwait eq -> mix\nwait 1 -> 2", "line 17: the wait of line 15 again"),
        (5, "tsk mic on 0 time 2", "line 5: a line begins with bound, input, output, task, wait or proposal, not with \"tsk\""),
    ];
    for (line, instead, expected) in table {
        assert_eq!(told(&with(line, instead)), expected);
    }
}

#[test]
fn a_desk_has_2_to_64_tasks() {
    let text = |tasks| {
        let lines: Vec<String> = (0..tasks)
            .map(|task| format!("task t{task} on {} time 1\n", task % 16))
            .collect();
        format!("bound 1\ninput 0\noutput 0\n{}", lines.concat())
    };
    assert!(text(2).parse::<Description>().is_ok());
    assert!(text(64).parse::<Description>().is_ok());
    assert_eq!(told(""), "line 1: the description ends without two tasks");
    assert_eq!(
        told(&text(1)),
        "line 4: the description ends without two tasks"
    );
    assert_eq!(told(&text(65)), "line 68: a desk has at most 64 tasks");
}

#[test]
fn a_list_has_at_most_256_waits() {
    let start = "bound 1\ninput 0\noutput 1\ntask on 0 time 1\ntask on 1 time 1\n";
    let waits: Vec<String> = (0..256)
        .map(|delay| format!("wait 0 -> 1 delay {delay}\n"))
        .collect();
    let full = format!("{start}{0}proposal\n{0}", waits.concat());
    let desk: Description = full.parse().unwrap();
    assert_eq!(desk.graph.edges.len(), 256);
    assert_eq!(desk.proposal.as_ref().map(Vec::len), Some(256));
    assert_eq!(Description::of(&desk.files()), Ok(desk));

    let one_more = format!("{start}{}wait 1 -> 0\n", waits.concat());
    assert_eq!(told(&one_more), "line 262: a list has at most 256 waits");
    let one_more = format!("{full}wait 1 -> 0\n");
    assert_eq!(told(&one_more), "line 519: a list has at most 256 waits");
}

#[test]
fn long_words_are_cut() {
    let text = with(2, &format!("input {}", "ü".repeat(100_000)));
    let expected = format!("line 2: no task is called \"{}\"...", "ü".repeat(40));
    assert_eq!(told(&text), expected);
}

/// Whatever is understood gives files that are read back as the same desk.
fn is_told_or_goes_round(text: &str) -> bool {
    match text.parse::<Description>() {
        Ok(desk) => {
            assert_eq!(Description::of(&desk.files()), Ok(desk));
            true
        }
        Err(mistake) => {
            assert!((1..=text.lines().count().max(1)).contains(&mistake.line));
            assert!(!mistake.to_string().contains('\n'));
            false
        }
    }
}

#[test]
fn mutated_texts_do_not_panic() {
    const PIECES: [&str; 24] = [
        "", " ", "\n", "\r\n", "#", "->", "-", ">", "0", "1", "2", "63", "64", "255", "256",
        "task", "wait", "delay", "proposal", "on", "time", "ü", "\u{2028}", "\0",
    ];
    let mut random = Random(3);
    let mut understood = 0;
    for round in 0..20_000 {
        let mut text = match round % 2 {
            0 => EXAMPLE.to_string(),
            _ => {
                let edges = random.below(8);
                random.desk(3, edges, Some(2)).to_string()
            }
        };
        for _ in 0..1 + random.below(3) {
            let cuts: Vec<usize> = text
                .char_indices()
                .map(|(at, _)| at)
                .chain([text.len()])
                .collect();
            let from = random.below(cuts.len());
            let to = (from + random.below(4)).min(cuts.len() - 1);
            text.replace_range(cuts[from]..cuts[to], PIECES[random.below(PIECES.len())]);
        }
        understood += usize::from(is_told_or_goes_round(&text));
    }
    assert!((500..19_500).contains(&understood), "{understood}");
}

#[test]
fn random_texts_do_not_panic() {
    const WORDS: [&str; 20] = [
        "bound", "input", "output", "task", "wait", "proposal", "on", "time", "delay", "->", "a",
        "b", "0", "1", "7", "300", "\n", "\n", "#", "\u{feff}",
    ];
    let mut random = Random(4);
    for _ in 0..20_000 {
        let words = random.below(40);
        let words: Vec<&str> = (0..words)
            .map(|_| WORDS[random.below(WORDS.len())])
            .collect();
        is_told_or_goes_round(&words.join(" "));
        let bytes: Vec<u8> = (0..random.below(60))
            .map(|_| random.below(256) as u8)
            .collect();
        is_told_or_goes_round(&String::from_utf8_lossy(&bytes));
    }
}
