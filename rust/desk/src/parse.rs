//! From text to a description.

use std::collections::{BTreeMap, HashMap};
use std::fmt;
use std::ops::RangeInclusive;
use std::str::FromStr;

use checker::files::{Edge, Graph, Task};

use crate::Description;

const TASKS: RangeInclusive<usize> = 2..=64;
const MOST_WAITS: usize = 256;
const BOUND: RangeInclusive<usize> = 0..=(1 << 23) - 1;
const PROCESSOR: RangeInclusive<usize> = 0..=15;
const TIME: RangeInclusive<usize> = 1..=65_535;
const DELAY: RangeInclusive<usize> = 0..=255;

/// What is wrong with a description, and in which line, from 1; the last line, if something is missing.
#[derive(Clone, Debug, PartialEq, Eq)]
pub struct Mistake {
    pub line: usize,
    pub what: String,
}

impl fmt::Display for Mistake {
    fn fmt(&self, f: &mut fmt::Formatter) -> fmt::Result {
        write!(f, "line {}: {}", self.line, self.what)
    }
}

impl std::error::Error for Mistake {}

impl FromStr for Description {
    type Err = Mistake;

    fn from_str(text: &str) -> Result<Description, Mistake> {
        // Some editors begin a text with this mark.
        let text = text.strip_prefix('\u{feff}').unwrap_or(text);
        let mut draft = Draft::default();
        let mut last = 1;
        for (line, content) in (1..).zip(text.lines()) {
            last = line;
            draft
                .take(line, &words(content))
                .map_err(|what| Mistake { line, what })?;
        }
        draft.finish(last)
    }
}

/// What the lines so far have said. Tasks are still called what the text calls them, since their lines may come later.
#[derive(Default)]
struct Draft<'a> {
    bound: Option<usize>,
    input: Option<Mention<'a>>,
    output: Option<Mention<'a>>,
    tasks: Vec<Task>,
    names: HashMap<&'a str, usize>,
    waits: Vec<Wait<'a>>,
    proposed: Option<Vec<Wait<'a>>>,
}

/// A task called by name or number.
struct Mention<'a> {
    line: usize,
    task: &'a str,
}

struct Wait<'a> {
    line: usize,
    source: &'a str,
    sink: &'a str,
    delay: usize,
}

impl<'a> Draft<'a> {
    /// Takes in the words of one line.
    fn take(&mut self, line: usize, words: &[&'a str]) -> Result<(), String> {
        if self.proposed.is_some() && !matches!(words, [] | ["wait", ..]) {
            return Err("only waits stand after `proposal`".to_string());
        }
        match *words {
            [] => Ok(()),
            ["bound", bound] => {
                let bound = number("a bound", bound, BOUND)?;
                once("bound", &mut self.bound, bound)
            }
            ["input", task] => once("input", &mut self.input, Mention { line, task }),
            ["output", task] => once("output", &mut self.output, Mention { line, task }),
            ["task", "on", processor, "time", time] => self.task(None, processor, time),
            ["task", name, "on", processor, "time", time] => self.task(Some(name), processor, time),
            ["wait", source, "->", sink] => self.wait(line, source, sink, "0"),
            ["wait", source, "->", sink, "delay", delay] => self.wait(line, source, sink, delay),
            ["proposal"] => once("proposal", &mut self.proposed, Vec::new()),
            [first, ..] => Err(form(first)),
        }
    }

    fn task(&mut self, name: Option<&'a str>, processor: &str, time: &str) -> Result<(), String> {
        if self.tasks.len() == *TASKS.end() {
            return Err(format!("a desk has at most {} tasks", TASKS.end()));
        }
        if let Some(name) = name {
            if !is_name(name) {
                return Err(format!(
                    "{} is no name: a letter, then letters, digits, `_`, `-` or `.`",
                    quoted(name)
                ));
            }
            if self.names.insert(name, self.tasks.len()).is_some() {
                return Err(format!("two tasks are named {}", quoted(name)));
            }
        }
        self.tasks.push(Task {
            processor: number("a processor", processor, PROCESSOR)?,
            time: number("a time", time, TIME)?,
        });
        Ok(())
    }

    fn wait(
        &mut self,
        line: usize,
        source: &'a str,
        sink: &'a str,
        delay: &str,
    ) -> Result<(), String> {
        let delay = number("a delay", delay, DELAY)?;
        let waits = self.proposed.as_mut().unwrap_or(&mut self.waits);
        if waits.len() == MOST_WAITS {
            return Err(format!("a list has at most {MOST_WAITS} waits"));
        }
        waits.push(Wait {
            line,
            source,
            sink,
            delay,
        });
        Ok(())
    }

    /// The description, once every line was taken in.
    fn finish(self, last: usize) -> Result<Description, Mistake> {
        let at_end = |what: &str| Mistake {
            line: last,
            what: format!("the description ends without {what}"),
        };
        if self.tasks.len() < *TASKS.start() {
            return Err(at_end("two tasks"));
        }
        let bound = self.bound.ok_or_else(|| at_end("`bound`"))?;
        let input = self.input.as_ref().ok_or_else(|| at_end("`input`"))?;
        let output = self.output.as_ref().ok_or_else(|| at_end("`output`"))?;
        let input = self.numbered(input.line, input.task)?;
        let output = self.numbered(output.line, output.task)?;
        let edges = self.edges(&self.waits)?;
        for (wait, edge) in self.waits.iter().zip(&edges) {
            self.between_processors(wait.line, edge)?;
        }
        let proposal = match &self.proposed {
            Some(waits) => Some(self.edges(waits)?),
            None => None,
        };
        let graph = Graph {
            tasks: self.tasks,
            edges,
            input,
            output,
            bound,
        };
        Ok(Description { graph, proposal })
    }

    /// The number of the task that is so called.
    fn numbered(&self, line: usize, task: &str) -> Result<usize, Mistake> {
        if let Some(&number) = self.names.get(task) {
            return Ok(number);
        }
        digits(task)
            .filter(|&number| number < self.tasks.len())
            .ok_or_else(|| Mistake {
                line,
                what: format!("no task is called {}", quoted(task)),
            })
    }

    fn between_processors(&self, line: usize, edge: &Edge) -> Result<(), Mistake> {
        let processor = self.tasks[edge.source].processor;
        if processor == self.tasks[edge.sink].processor {
            let what = format!("both tasks are on processor {processor}");
            return Err(Mistake { line, what });
        }
        Ok(())
    }

    /// The edges of a list of waits, none of which may stand twice.
    fn edges(&self, waits: &[Wait]) -> Result<Vec<Edge>, Mistake> {
        let mut edges = Vec::new();
        let mut lines = BTreeMap::new();
        for wait in waits {
            let edge = Edge {
                source: self.numbered(wait.line, wait.source)?,
                sink: self.numbered(wait.line, wait.sink)?,
                delay: wait.delay,
            };
            if let Some(earlier) = lines.insert(edge, wait.line) {
                return Err(Mistake {
                    line: wait.line,
                    what: format!("the wait of line {earlier} again"),
                });
            }
            edges.push(edge);
        }
        Ok(edges)
    }
}

/// The words of a line, without its comment. An arrow is a word of its own, with or without spaces around it.
fn words(line: &str) -> Vec<&str> {
    let statement = line.split('#').next().unwrap_or_default();
    let mut words = Vec::new();
    for mut rest in statement.split_whitespace() {
        while let Some((before, after)) = rest.split_once("->") {
            words.extend([before, "->"]);
            rest = after;
        }
        words.push(rest);
    }
    words.retain(|word| !word.is_empty());
    words
}

/// Sets what may be said only once.
fn once<T>(word: &str, place: &mut Option<T>, value: T) -> Result<(), String> {
    match place.replace(value) {
        Some(_) => Err(format!("`{word}` stands twice")),
        None => Ok(()),
    }
}

fn number(what: &str, word: &str, range: RangeInclusive<usize>) -> Result<usize, String> {
    digits(word)
        .filter(|number| range.contains(number))
        .ok_or_else(|| {
            let (least, most) = range.into_inner();
            format!("{what} is {least} to {most}, not {}", quoted(word))
        })
}

/// The number that digits alone write, if it is one; [`str::parse`] takes a sign too.
fn digits(word: &str) -> Option<usize> {
    let only_digits = word.bytes().all(|byte| byte.is_ascii_digit());
    word.parse().ok().filter(|_| only_digits)
}

fn is_name(word: &str) -> bool {
    word.starts_with(char::is_alphabetic)
        && word
            .chars()
            .all(|sign| sign.is_alphanumeric() || "_-.".contains(sign))
}

/// How a line that begins with this word is written.
fn form(first: &str) -> String {
    let form = match first {
        "bound" => "bound UNITS",
        "input" => "input TASK",
        "output" => "output TASK",
        "task" => "task NAME on PROCESSOR time UNITS",
        "wait" => "wait SOURCE -> SINK` or `wait SOURCE -> SINK delay TURNS",
        "proposal" => "proposal",
        _ => {
            return format!(
                "a line begins with bound, input, output, task, wait or proposal, not with {}",
                quoted(first)
            )
        }
    };
    format!("this line is written `{form}`")
}

/// A word of the text, fit for one line of an error.
fn quoted(word: &str) -> String {
    const MOST: usize = 40;
    let front: String = word.chars().take(MOST).collect();
    let dots = if front.len() < word.len() { "..." } else { "" };
    format!("{front:?}{dots}")
}
