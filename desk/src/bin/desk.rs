//! The program `desk`; see README.md.

use std::process::ExitCode;

fn main() -> ExitCode {
    let arguments: Vec<String> = std::env::args().skip(1).collect();
    desk::commands::run(&arguments)
}
