//! What the command line asks for.

use std::path::PathBuf;

pub const USAGE: &str = "usage: compare PROGRAM [--schedules N] [--seed S] [--examples DIR]
                           [--only INDEX] [--no-limit]
       compare --print INDEX [--seed S]
       compare --print-long N [--set-up RECORD] [--seed S]

PROGRAM is run on each schedule, standard input to standard output, and its
printout compared with the plain stepper's.
--schedules N   how many schedules (3000)
--seed S        the seed they are made from (1997)
--examples DIR  also each NAME.csv in DIR against NAME.printout.csv
--only INDEX    only this one schedule
--no-limit      leave out the two runs at the limit of 1,000,000 records
--print INDEX   write this schedule to standard output and compare nothing
--print-long N  write a schedule of N records to time by, on the board of --set-up
                (by default the widest, with 16 tag bits)";

pub struct Options {
    pub program: Option<PathBuf>,
    pub schedules: u64,
    pub seed: u64,
    pub examples: Option<PathBuf>,
    pub only: Option<u64>,
    pub limit: bool,
    pub print: Option<u64>,
    pub print_long: Option<u64>,
    pub set_up: String,
}

impl Options {
    /// Nothing where the command line is not as the usage has it.
    pub fn read(mut arguments: impl Iterator<Item = String>) -> Option<Options> {
        let mut options = Options {
            program: None,
            schedules: 3_000,
            seed: 1997,
            examples: None,
            only: None,
            limit: true,
            print: None,
            print_long: None,
            set_up: "16,many,16,16,4,,".to_string(),
        };
        while let Some(argument) = arguments.next() {
            options.take(argument, &mut arguments)?;
        }
        Some(options)
    }

    fn take(&mut self, argument: String, more: &mut impl Iterator<Item = String>) -> Option<()> {
        let mut number = || more.next()?.parse().ok();
        match argument.as_str() {
            "--schedules" => self.schedules = number()?,
            "--seed" => self.seed = number()?,
            "--only" => self.only = Some(number()?),
            "--print" => self.print = Some(number()?),
            "--print-long" => self.print_long = Some(number()?),
            "--set-up" => self.set_up = more.next()?,
            "--examples" => self.examples = Some(more.next()?.into()),
            "--no-limit" => self.limit = false,
            _ if argument.starts_with("--") || self.program.is_some() => return None,
            _ => self.program = Some(argument.into()),
        }
        Some(())
    }
}
