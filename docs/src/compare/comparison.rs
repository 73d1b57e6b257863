//! Everything that is compared, one input after another, and the report of it
//! with what the schedules made happen.

use crate::coverage::Coverage;
use crate::difference::tell_difference;
use crate::edges;
use crate::generate::{self, SORTS};
use crate::options::Options;
use crate::runner::{Runner, Way};
use crate::Failure;
use std::fs;
use std::path::Path;
use std::time::{Duration, Instant};

/// From so many schedules on, a thing wanted that never happened is a failure.
const FULL_COVERAGE: u64 = 2_000;

struct Comparison<'a> {
    runner: Runner<'a>,
    coverage: Coverage,
    rows: usize,
    /// How many schedules of each sort.
    sorts: [u64; SORTS.len()],
}

pub fn compare_all(program: &Path, options: &Options) -> Result<(), Failure> {
    let started = Instant::now();
    let mut comparison = Comparison {
        runner: Runner::new(program),
        coverage: Coverage::default(),
        rows: 0,
        sorts: [0; SORTS.len()],
    };
    if let Some(index) = options.only {
        comparison.compare_generated(options.seed, index)?;
        println!("schedule {index} of seed {}: the same", options.seed);
        return Ok(());
    }
    let edges = comparison.compare_edges()?;
    let examples = match &options.examples {
        Some(dir) => comparison.compare_examples(dir)?,
        None => 0,
    };
    if options.limit {
        comparison.compare_limit()?;
    }
    for index in 0..options.schedules {
        comparison.compare_generated(options.seed, index)?;
    }
    comparison.report(options, edges, examples, started.elapsed());
    comparison.check_coverage(options)
}

impl Comparison<'_> {
    fn compare_generated(&mut self, seed: u64, index: u64) -> Result<(), Failure> {
        let schedule = generate::schedule(seed, index);
        let name = format!("schedule {index} of seed {seed} ({:?})", schedule.sort);
        self.sorts[schedule.sort as usize] += 1;
        let way = if index.is_multiple_of(2) { Way::File } else { Way::Pipe };
        self.coverage.watch(&schedule.bytes);
        self.compare(&name, &schedule.bytes, &plain_printout(&schedule.bytes), way)
    }

    /// The last record allowed, and the first one after it. Of these runs the
    /// coverage takes in the refusal alone: they would drown the other counts.
    fn compare_limit(&mut self) -> Result<(), Failure> {
        let mut schedule = generate::counted(stepper::MOST_RECORDS);
        let printout = plain_printout(&schedule);
        self.compare("1,000,000 records", &schedule, &printout, Way::File)?;
        schedule.extend_from_slice(b"\"");
        let printout = plain_printout(&schedule);
        self.compare("1,000,000 records and a byte", &schedule, &printout, Way::File)?;
        self.coverage.note_limit(printout.ends_with(b"\r\n1000001,,,refused,,12,,,\r\n"));
        Ok(())
    }

    /// Edges and examples have printouts of their own, which the plain stepper
    /// has to give too.
    fn compare_settled(
        &mut self,
        name: &str,
        schedule: &[u8],
        printout: &[u8],
    ) -> Result<(), Failure> {
        let plain = plain_printout(schedule);
        if plain != printout {
            tell_difference(&format!("{name}, plain stepper"), schedule, printout, &plain);
            return Err(Failure::Difference);
        }
        self.coverage.watch(schedule);
        self.compare(name, schedule, printout, Way::File)
    }

    fn compare_edges(&mut self) -> Result<usize, Failure> {
        let edges = edges::edges();
        for edge in &edges {
            let name = format!("edge \"{}\"", edge.name);
            self.compare_settled(&name, &edge.schedule, &edge.printout)?;
        }
        Ok(edges.len())
    }

    fn compare_examples(&mut self, dir: &Path) -> Result<usize, Failure> {
        let names = example_names(dir)?;
        for name in &names {
            let schedule = read_file(&dir.join(format!("{name}.csv")))?;
            let printout = read_file(&dir.join(format!("{name}.printout.csv")))?;
            self.compare_settled(&format!("example {name}"), &schedule, &printout)?;
        }
        Ok(names.len())
    }

    fn compare(
        &mut self,
        name: &str,
        schedule: &[u8],
        expected: &[u8],
        way: Way,
    ) -> Result<(), Failure> {
        let printed = self.runner.run(name, schedule, way)?;
        if printed == expected {
            self.rows += printed.iter().filter(|&&byte| byte == b'\n').count() - 1;
            return Ok(());
        }
        tell_difference(name, schedule, expected, &printed);
        Err(Failure::Difference)
    }

    fn report(&self, options: &Options, edges: usize, examples: usize, taken: Duration) {
        println!(
            "compared {} schedules of seed {}, {edges} edges, {examples} examples and {} runs at \
             the limit: {} rows, all the same, in {:.1} s",
            options.schedules,
            options.seed,
            if options.limit { 2 } else { 0 },
            self.rows,
            taken.as_secs_f64(),
        );
        for (name, count) in SORTS.iter().zip(self.sorts) {
            println!("{count:>10}  schedules: {name}");
        }
        for (name, count) in self.coverage.counts() {
            println!("{count:>10}  {name}");
        }
        for (name, seen, of) in self.coverage.sizes() {
            println!("{seen:>4} of {of:>2}  {name}");
        }
    }

    fn check_coverage(&self, options: &Options) -> Result<(), Failure> {
        if options.schedules < FULL_COVERAGE {
            return Ok(());
        }
        let never =
            |(name, count): &(String, u64)| *count == 0 && (options.limit || name != "refused 12");
        let missed = self.coverage.counts().into_iter().find(never);
        if let Some((name, _)) = missed {
            return Err(Failure::Missed(name));
        }
        let unseen = self.coverage.sizes().into_iter().find(|(_, seen, of)| seen < of);
        match unseen {
            Some((name, seen, of)) => Err(Failure::Missed(format!("{name}: {seen} of {of} sizes"))),
            None => Ok(()),
        }
    }
}

/// The plain stepper's printout, by the function that is its whole program.
fn plain_printout(schedule: &[u8]) -> Vec<u8> {
    let mut printout = Vec::new();
    stepper::run(schedule, &mut printout, false).expect("memory to memory");
    printout
}

fn read_file(path: &Path) -> Result<Vec<u8>, Failure> {
    fs::read(path).map_err(|error| Failure::Trouble(format!("{}: {error}", path.display())))
}

/// NAME of each NAME.csv that is no printout, in order.
fn example_names(dir: &Path) -> Result<Vec<String>, Failure> {
    let trouble = |error| Failure::Trouble(format!("{}: {error}", dir.display()));
    let mut names = Vec::new();
    for entry in fs::read_dir(dir).map_err(trouble)? {
        let file = entry.map_err(trouble)?.file_name().to_string_lossy().into_owned();
        if let Some(name) = file.strip_suffix(".csv") {
            if !name.ends_with(".printout") {
                names.push(name.to_string());
            }
        }
    }
    names.sort();
    Ok(names)
}
