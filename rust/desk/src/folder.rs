//! Descriptions and files on disk. Errors and notes are lines as compilers write them: where, what kind, what.

use std::fs::{self, File};
use std::io::{self, ErrorKind, Read};
use std::path::Path;

use crate::{Description, Files, Mistake};

const GRAPH: &str = "graph.bin";
const PROPOSAL: &str = "proposal.bin";

/// Ample for any description.
const MOST_TEXT: u64 = 1 << 20;
/// As much of a file as the program reads. The largest has 807 bytes, and a longer one is refused by its front as it is whole.
const MOST_BYTES: u64 = 4096;

/// Makes the files of a description in a folder, and the folder if need be. The answer is what the user should know, if anything.
///
/// Old files are removed first, and a write that fails leaves neither file: a checker then judges what the description says or finds nothing.
pub fn write(text: &Path, folder: &Path) -> Result<Option<String>, String> {
    // The description is read before anything is removed, since it may be one of the two files.
    let files = described(text).map_err(|error| emptied(folder, error))?;
    let removed = clear(folder)?;
    put(folder, &files).map_err(|error| emptied(folder, error))?;
    let old_proposal = files.proposal.is_none() && removed.contains(&PROPOSAL);
    Ok(old_proposal.then(|| {
        let folder = folder.display();
        format!("{folder}: note: removed {PROPOSAL}, since the description has no proposal")
    }))
}

/// The description of the files in a folder.
pub fn read(folder: &Path) -> Result<String, String> {
    let (graph, proposal) = (folder.join(GRAPH), folder.join(PROPOSAL));
    let files = Files {
        graph: front(&graph, MOST_BYTES).map_err(because(&graph))?,
        proposal: match front(&proposal, MOST_BYTES) {
            Err(error) if error.kind() == ErrorKind::NotFound => None,
            read => Some(read.map_err(because(&proposal))?),
        },
    };
    match Description::of(&files) {
        Ok(description) => Ok(description.to_string()),
        Err(refused) => Err(format!("{}: error: {refused}", folder.display())),
    }
}

/// The first bytes of a file, so many at most.
fn front(path: &Path, most: u64) -> io::Result<Vec<u8>> {
    let mut bytes = Vec::new();
    File::open(path)?.take(most).read_to_end(&mut bytes)?;
    Ok(bytes)
}

/// The files that a description stands for.
fn described(text: &Path) -> Result<Files, String> {
    let content = front(text, MOST_TEXT + 1).map_err(because(text))?;
    if content.len() as u64 > MOST_TEXT {
        let shown = text.display();
        return Err(format!("{shown}: error: longer than {MOST_TEXT} bytes"));
    }
    in_utf8(&content)
        .and_then(str::parse::<Description>)
        .map(|description| description.files())
        .map_err(|Mistake { line, what }| format!("{}:{line}: error: {what}", text.display()))
}

fn in_utf8(bytes: &[u8]) -> Result<&str, Mistake> {
    std::str::from_utf8(bytes).map_err(|error| {
        let good = &bytes[..error.valid_up_to()];
        let line = 1 + good.iter().filter(|&&byte| byte == b'\n').count();
        let what = "not UTF-8 text".to_string();
        Mistake { line, what }
    })
}

fn put(folder: &Path, files: &Files) -> Result<(), String> {
    fs::create_dir_all(folder).map_err(because(folder))?;
    let graph = folder.join(GRAPH);
    fs::write(&graph, &files.graph).map_err(because(&graph))?;
    if let Some(bytes) = &files.proposal {
        let proposal = folder.join(PROPOSAL);
        fs::write(&proposal, bytes).map_err(because(&proposal))?;
    }
    Ok(())
}

/// Removes both files, each if it is there, and gives the names of those that were.
fn clear(folder: &Path) -> Result<Vec<&'static str>, String> {
    let mut removed = Vec::new();
    let mut errors = Vec::new();
    // Where the folder's path leads through a file there is nothing to remove.
    let in_a_file = folder.ancestors().any(Path::is_file);
    for name in [GRAPH, PROPOSAL] {
        let path = folder.join(name);
        match fs::remove_file(&path) {
            Ok(()) => removed.push(name),
            Err(error) if error.kind() == ErrorKind::NotFound || in_a_file => {}
            Err(error) => {
                let shown = path.display();
                errors.push(format!("{shown}: error: not removed: {error}"));
            }
        }
    }
    if errors.is_empty() {
        Ok(removed)
    } else {
        Err(errors.join("\n"))
    }
}

/// Removes both files after an error, and adds to it a line that says so, or a line for each that is still there.
fn emptied(folder: &Path, error: String) -> String {
    match clear(folder) {
        Ok(removed) if removed.is_empty() => error,
        Ok(removed) => {
            let (shown, names) = (folder.display(), removed.join(" and "));
            format!("{error}\n{shown}: note: removed {names}")
        }
        Err(left) => format!("{error}\n{left}"),
    }
}

fn because(path: &Path) -> impl Fn(io::Error) -> String + '_ {
    move |error| format!("{}: error: {error}", path.display())
}
