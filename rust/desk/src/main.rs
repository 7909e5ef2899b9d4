//! The command `desk`; see the library.

use std::process::ExitCode;

fn main() -> ExitCode {
    let arguments: Vec<_> = std::env::args_os().skip(1).collect();
    ExitCode::from(desk::command::run(
        &arguments,
        &mut std::io::stdout(),
        &mut std::io::stderr(),
    ))
}
