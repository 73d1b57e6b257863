//! Compares a program with the plain stepper, byte for byte, on schedules made
//! from a seed, on the examples, on inputs at the edge of document 01's wording
//! and at the limit of 1,000,000 records.
//!
//! Ends with 0 if every printout was the same, 1 on a difference, 2 if it
//! could not be run, 3 if the schedules missed something they should reach.

mod comparison;
mod coverage;
mod difference;
mod edges;
mod generate;
mod options;
mod runner;

use options::{Options, USAGE};
use std::io::Write;
use std::process::ExitCode;

enum Failure {
    Difference,
    Trouble(String),
    Missed(String),
}

fn main() -> ExitCode {
    let result = match Options::read(std::env::args().skip(1)) {
        Some(options) => perform(&options),
        None => Err(Failure::Trouble(USAGE.to_string())),
    };
    match result {
        Ok(()) => ExitCode::SUCCESS,
        Err(Failure::Difference) => ExitCode::from(1),
        Err(Failure::Trouble(why)) => {
            eprintln!("{why}");
            ExitCode::from(2)
        }
        Err(Failure::Missed(what)) => {
            println!("never happened: {what}");
            ExitCode::from(3)
        }
    }
}

fn perform(options: &Options) -> Result<(), Failure> {
    let seed = options.seed;
    if let Some(index) = options.print {
        return write_out(&generate::schedule(seed, index).bytes);
    }
    if let Some(count) = options.print_long {
        return write_out(&generate::long(seed, count, &options.set_up));
    }
    match &options.program {
        Some(program) => comparison::compare_all(program, options),
        None => Err(Failure::Trouble(USAGE.to_string())),
    }
}

fn write_out(schedule: &[u8]) -> Result<(), Failure> {
    let written = std::io::stdout().write_all(schedule);
    written.map_err(|error| Failure::Trouble(error.to_string()))
}
