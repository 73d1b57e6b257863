//! The plain program: a schedule on standard input, the printout on standard output.
//!
//! Without an argument, or with `--check-form`, every begin, step and open
//! count first checks the good form of the whole board, as document 01's entry
//! points do. `--no-check-form` leaves that out; the printout is the same,
//! since a board set up and stepped here alone is always in good form.

use std::io;
use std::process::ExitCode;

fn main() -> ExitCode {
    let arguments: Vec<String> = std::env::args().skip(1).collect();
    let check_form = match arguments.iter().map(String::as_str).collect::<Vec<_>>()[..] {
        [] | ["--check-form"] => true,
        ["--no-check-form"] => false,
        _ => {
            eprintln!("usage: plain [--check-form | --no-check-form] < schedule > printout");
            return ExitCode::from(2);
        }
    };
    match stepper::run(io::stdin().lock(), io::stdout().lock(), check_form) {
        Ok(()) => ExitCode::SUCCESS,
        Err(error) => {
            eprintln!("plain: {error}");
            ExitCode::FAILURE
        }
    }
}
