//! The command line.

use std::ffi::OsString;
use std::io::Write;
use std::path::Path;

use crate::folder;

const USAGE: &str = "\
usage: desk write FILE FOLDER   makes graph.bin, and proposal.bin if there is a proposal, from the description FILE
       desk read FOLDER         prints the description of the files in FOLDER
       desk help                prints how a description is written";
const FORMAT: &str = include_str!("../FORMAT.md");

/// Runs the command and gives its exit status: 0, 1 for an error, which is told as compilers tell theirs, 2 for a command that is not one.
pub fn run(arguments: &[OsString], out: &mut impl Write, err: &mut impl Write) -> u8 {
    let done = match arguments {
        [word, text, folder] if word == "write" => {
            folder::write(Path::new(text), Path::new(folder)).map(|note| {
                if let Some(note) = note {
                    tell(err, &note);
                }
            })
        }
        [word, folder] if word == "read" => {
            folder::read(Path::new(folder)).and_then(|text| print(out, &text))
        }
        [word] if word == "help" || word == "--help" => print(out, &format!("{USAGE}\n\n{FORMAT}")),
        _ => {
            tell(err, USAGE);
            return 2;
        }
    };
    match done {
        Ok(()) => 0,
        Err(error) => {
            tell(err, &error);
            1
        }
    }
}

fn print(out: &mut impl Write, text: &str) -> Result<(), String> {
    out.write_all(text.as_bytes())
        .and_then(|()| out.flush())
        .map_err(|error| format!("standard output: error: {error}"))
}

/// An error that cannot be told is still in the exit status.
fn tell(err: &mut impl Write, lines: &str) {
    let _ = writeln!(err, "{lines}");
}
