//! The command itself, on folders of its own.

mod example;

use std::fs;
use std::path::{Path, PathBuf};
use std::process::{Command, Stdio};

use example::EXAMPLE;

/// A new folder for one test.
fn new_folder(test: &str) -> PathBuf {
    let folder = Path::new(env!("CARGO_TARGET_TMPDIR")).join(format!("desk-{test}"));
    let _ = fs::remove_dir_all(&folder);
    fs::create_dir_all(&folder).unwrap();
    folder
}

/// Exit status, standard output and standard error of a run in a folder.
fn desk(folder: &Path, arguments: &[&str]) -> (i32, String, String) {
    let output = Command::new(env!("CARGO_BIN_EXE_desk"))
        .args(arguments)
        .current_dir(folder)
        .output()
        .unwrap();
    let text = |bytes| String::from_utf8(bytes).unwrap();
    let status = output.status.code().expect("an exit status");
    (status, text(output.stdout), text(output.stderr))
}

fn silent() -> (i32, String, String) {
    (0, String::new(), String::new())
}

fn error(lines: &str) -> (i32, String, String) {
    (1, String::new(), format!("{lines}\n"))
}

/// Another desk's files in a folder, as an earlier write leaves them.
fn put_old_files(folder: &Path) {
    fs::create_dir_all(folder).unwrap();
    fs::write(folder.join("graph.bin"), [8, 1]).unwrap();
    fs::write(folder.join("proposal.bin"), [8, 0]).unwrap();
}

/// The names of what is in a folder, sorted.
fn names_in(folder: &Path) -> Vec<String> {
    let entries = fs::read_dir(folder).unwrap();
    let mut names: Vec<String> = entries
        .map(|entry| entry.unwrap().file_name().into_string().unwrap())
        .collect();
    names.sort();
    names
}

#[test]
fn writes_and_reads() {
    let here = new_folder("writes");
    fs::write(here.join("desk.txt"), EXAMPLE).unwrap();
    assert_eq!(desk(&here, &["write", "desk.txt", "a/b"]), silent());
    let (status, text, _) = desk(&here, &["read", "a/b"]);
    assert_eq!(status, 0);

    fs::write(here.join("again.txt"), text).unwrap();
    assert_eq!(desk(&here, &["write", "again.txt", "c"]), silent());
    for file in ["graph.bin", "proposal.bin"] {
        let bytes = |folder| fs::read(here.join(folder).join(file)).unwrap();
        assert_eq!(bytes("a/b"), bytes("c"));
    }
}

#[test]
fn a_proposal_may_be_missing() {
    let here = new_folder("missing");
    let graph = EXAMPLE.split("proposal").next().unwrap();
    fs::write(here.join("desk.txt"), graph).unwrap();
    assert_eq!(desk(&here, &["write", "desk.txt", "."]), silent());
    assert!(!here.join("proposal.bin").exists());
    let (status, text, _) = desk(&here, &["read", "."]);
    assert_eq!((status, text.contains("proposal")), (0, false));

    fs::write(here.join("proposal.bin"), [8, 0]).unwrap();
    let note = ".: note: removed proposal.bin, since the description has no proposal\n";
    let (status, _, told) = desk(&here, &["write", "desk.txt", "."]);
    assert_eq!((status, &*told), (0, note));
    assert_eq!(names_in(&here), ["desk.txt", "graph.bin"]);
}

#[test]
fn errors_are_told_as_compilers_do() {
    let here = new_folder("errors");
    fs::write(here.join("wrong.txt"), "bound 12\nbound 13\n").unwrap();
    let told = "wrong.txt:2: error: `bound` stands twice";
    assert_eq!(desk(&here, &["write", "wrong.txt", "new"]), error(told));

    fs::write(here.join("bytes.txt"), b"bound 12\n\ninput \xFF\n").unwrap();
    let told = "bytes.txt:3: error: not UTF-8 text";
    assert_eq!(desk(&here, &["write", "bytes.txt", "new"]), error(told));

    fs::write(here.join("long.txt"), vec![b'#'; (1 << 20) + 1]).unwrap();
    let told = "long.txt: error: longer than 1048576 bytes";
    assert_eq!(desk(&here, &["write", "long.txt", "new"]), error(told));

    let told = "none.txt: error: No such file or directory (os error 2)";
    assert_eq!(desk(&here, &["write", "none.txt", "new"]), error(told));
    assert!(!here.join("new").exists());

    let told = "none/graph.bin: error: No such file or directory (os error 2)";
    assert_eq!(desk(&here, &["read", "none"]), error(told));
}

#[test]
fn a_mistake_leaves_no_old_files() {
    let here = new_folder("mistake");
    fs::write(here.join("wrong.txt"), "bound 12\nbound 13\n").unwrap();
    let errors = [
        ("wrong.txt", "wrong.txt:2: error: `bound` stands twice"),
        (
            "none.txt",
            "none.txt: error: No such file or directory (os error 2)",
        ),
    ];
    for (text, told) in errors {
        put_old_files(&here.join("old"));
        fs::write(here.join("old/other.bin"), [8]).unwrap();
        let told = format!("{told}\nold: note: removed graph.bin and proposal.bin");
        assert_eq!(desk(&here, &["write", text, "old"]), error(&told));
        assert_eq!(names_in(&here.join("old")), ["other.bin"]);
    }
}

#[test]
fn a_file_in_the_folders_place_stays() {
    let here = new_folder("no-folder");
    fs::write(here.join("desk.txt"), EXAMPLE).unwrap();
    fs::write(here.join("wrong.txt"), "bound").unwrap();
    let told = "wrong.txt: error: File exists (os error 17)";
    assert_eq!(
        desk(&here, &["write", "desk.txt", "wrong.txt"]),
        error(told)
    );
    let told = "wrong.txt/a: error: Not a directory (os error 20)";
    assert_eq!(
        desk(&here, &["write", "desk.txt", "wrong.txt/a"]),
        error(told)
    );
    let told = "wrong.txt:1: error: this line is written `bound UNITS`";
    assert_eq!(
        desk(&here, &["write", "wrong.txt", "desk.txt"]),
        error(told)
    );
    assert_eq!(names_in(&here), ["desk.txt", "wrong.txt"]);
}

#[test]
fn what_cannot_be_removed_is_told() {
    let here = new_folder("stuck");
    fs::write(here.join("desk.txt"), EXAMPLE).unwrap();
    fs::write(here.join("wrong.txt"), "bound").unwrap();
    for (text, first) in [
        ("desk.txt", ""),
        (
            "wrong.txt",
            "wrong.txt:1: error: this line is written `bound UNITS`\n",
        ),
    ] {
        // A folder in a file's place, which no removal of files removes.
        fs::create_dir_all(here.join("old/graph.bin")).unwrap();
        fs::write(here.join("old/proposal.bin"), [8, 0]).unwrap();
        let (status, _, told) = desk(&here, &["write", text, "old"]);
        let expected = format!("{first}old/graph.bin: error: not removed: ");
        assert!(told.starts_with(&expected), "{told}");
        assert_eq!(
            (status, told.lines().count()),
            (1, expected.lines().count())
        );
        assert_eq!(names_in(&here.join("old")), ["graph.bin"]);
    }
}

#[cfg(unix)]
#[test]
fn a_write_that_fails_half_way_leaves_nothing() {
    let here = new_folder("half-way");
    let waits: Vec<String> = (0..256)
        .map(|delay| format!("wait 0 -> 1 delay {delay}\n"))
        .collect();
    let tasks = "bound 1\ninput 0\noutput 1\ntask on 0 time 1\ntask on 1 time 1\n";
    let text = format!("{tasks}proposal\n{}", waits.concat());
    fs::write(here.join("desk.txt"), text).unwrap();
    put_old_files(&here.join("old"));
    // The graph has 12 bytes, the proposal 642, and no file gets more than 512.
    let output = Command::new("sh")
        .args([
            "-c",
            "trap '' XFSZ; ulimit -f 1; exec \"$0\" write desk.txt old",
        ])
        .arg(env!("CARGO_BIN_EXE_desk"))
        .current_dir(&here)
        .output()
        .unwrap();
    assert_eq!(output.status.code(), Some(1));
    let told = "old/proposal.bin: error: File too large (os error 27)\n\
                old: note: removed graph.bin and proposal.bin\n";
    assert_eq!(String::from_utf8_lossy(&output.stderr), told);
    assert!(names_in(&here.join("old")).is_empty());
}

#[test]
fn a_description_in_a_files_place_is_read_first() {
    let here = new_folder("in-place");
    fs::write(here.join("graph.bin"), EXAMPLE).unwrap();
    assert_eq!(desk(&here, &["write", "graph.bin", "."]), silent());
    let (status, text, _) = desk(&here, &["read", "."]);
    assert_eq!((status, text.contains("proposal")), (0, true));
}

#[test]
fn malformed_files_are_told_by_their_refusal() {
    let here = new_folder("malformed");
    fs::write(here.join("desk.txt"), EXAMPLE).unwrap();
    assert_eq!(desk(&here, &["write", "desk.txt", "."]), silent());
    fs::write(here.join("proposal.bin"), [0x08, 0x04, 0x04, 0x40, 0x00]).unwrap();
    let told = ".: error: proposal.bin gets refusal 6 at place 1: no such task";
    assert_eq!(desk(&here, &["read", "."]), error(told));
    fs::write(here.join("graph.bin"), vec![0x08; 1 << 20]).unwrap();
    let told = ".: error: graph.bin gets refusal 3: not 2 to 64 tasks, or over 256 waits";
    assert_eq!(desk(&here, &["read", "."]), error(told));
}

#[test]
fn usage_and_help() {
    let here = new_folder("usage");
    let wrong: [&[&str]; 5] = [
        &[],
        &["read"],
        &["write", "a"],
        &["read", "a", "b"],
        &["draw", "a"],
    ];
    for arguments in wrong {
        let (status, out, err) = desk(&here, arguments);
        assert_eq!((status, &*out), (2, ""));
        assert!(err.starts_with("usage: desk write FILE FOLDER"));
    }
    let (status, out, err) = desk(&here, &["help"]);
    assert_eq!((status, &*err), (0, ""));
    assert!(out.contains("wait SOURCE -> SINK"));
}

#[cfg(unix)]
#[test]
fn a_reader_that_went_away_is_an_error_like_others() {
    use std::os::unix::io::OwnedFd;
    use std::os::unix::net::UnixStream;
    let (reader, writer) = UnixStream::pair().unwrap();
    drop(reader);
    let output = Command::new(env!("CARGO_BIN_EXE_desk"))
        .arg("help")
        .stdout(OwnedFd::from(writer))
        .stderr(Stdio::piped())
        .spawn()
        .and_then(|child| child.wait_with_output())
        .unwrap();
    assert_eq!(output.status.code(), Some(1));
    let told = "standard output: error: Broken pipe (os error 32)\n";
    assert_eq!(String::from_utf8_lossy(&output.stderr), told);
}

#[cfg(unix)]
#[test]
fn names_of_files_need_not_be_text() {
    use std::ffi::OsStr;
    use std::os::unix::ffi::OsStrExt;
    let output = Command::new(env!("CARGO_BIN_EXE_desk"))
        .args([OsStr::new("read"), OsStr::from_bytes(b"\xFF")])
        .output()
        .unwrap();
    assert_eq!(output.status.code(), Some(1));
}
