// The command line: runs one command, prints what it gives and ends with its status.
// Everything else is in the library beside it, so that tests can call it.
#![forbid(unsafe_code)]
#![deny(warnings)]

use look::{arguments, run};
use std::ffi::OsStr;
use std::io::Write;
use std::path::Path;
use std::process::ExitCode;

fn main() -> ExitCode {
    let words: Vec<_> = std::env::args_os().skip(1).collect();
    let is_file = |name: &OsStr| Path::new(name).is_file();
    let outcome = arguments::parse(&words, is_file).and_then(|command| run::run(&command));
    match outcome {
        Ok(done) => {
            // A reader that has seen enough (`look IMAGE | head`) is no failure.
            let _ = std::io::stdout().write_all(done.text.as_bytes());
            ExitCode::from(done.status)
        }
        Err(what) => {
            eprintln!("look: {what}");
            ExitCode::from(run::BAD_USAGE)
        }
    }
}
