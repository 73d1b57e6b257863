//! Runs the program compared on one schedule, from a file or through a pipe, and
//! takes its printout. One that fails or does not end counts as a difference.

use crate::difference::tell_schedule;
use crate::Failure;
use std::fs::{self, File};
use std::io::{self, Read, Write};
use std::path::{Path, PathBuf};
use std::process::{Child, Command, Stdio};
use std::sync::mpsc;
use std::thread;
use std::time::Duration;

/// A program that has not ended by then is taken not to end.
const TIME_LIMIT: Duration = Duration::from_secs(120);

/// A file gives full reads, a pipe fed in pieces gives short ones.
#[derive(Clone, Copy)]
pub enum Way {
    File,
    Pipe,
}

const PIECE: usize = 1_000;

pub struct Runner<'a> {
    program: &'a Path,
    /// Holds the schedule that is being run.
    file: PathBuf,
}

impl Drop for Runner<'_> {
    fn drop(&mut self) {
        let _ = fs::remove_file(&self.file);
    }
}

impl Runner<'_> {
    pub fn new(program: &Path) -> Runner<'_> {
        let name = format!("crossingdew-compare-{}.csv", std::process::id());
        Runner { program, file: std::env::temp_dir().join(name) }
    }

    pub fn run(&self, name: &str, schedule: &[u8], way: Way) -> Result<Vec<u8>, Failure> {
        let trouble = |error| Failure::Trouble(format!("{}: {error}", self.program.display()));
        let mut child = self.start(schedule, way).map_err(trouble)?;
        let output = collect(&mut child);
        let printed = thread::scope(|scope| {
            if let Some(mut input) = child.stdin.take() {
                // A program may end before it has read all: no error here.
                scope.spawn(move || {
                    schedule.chunks(PIECE).try_for_each(|piece| input.write_all(piece))
                });
            }
            let printed = output.recv_timeout(TIME_LIMIT);
            if printed.is_err() {
                let _ = child.kill();
            }
            printed
        });
        let status = child.wait().map_err(trouble)?;
        match printed {
            Err(_) => println!("{name}: no end after {} s", TIME_LIMIT.as_secs()),
            Ok(_) if !status.success() => println!("{name}: ended with {status}"),
            Ok(printed) => return Ok(printed),
        }
        tell_schedule(schedule, usize::MAX);
        Err(Failure::Difference)
    }

    fn start(&self, schedule: &[u8], way: Way) -> io::Result<Child> {
        let input = match way {
            Way::File => {
                fs::write(&self.file, schedule)?;
                Stdio::from(File::open(&self.file)?)
            }
            Way::Pipe => Stdio::piped(),
        };
        Command::new(self.program).stdin(input).stdout(Stdio::piped()).spawn()
    }
}

/// Reads the child's output on a thread of its own, so that neither side waits
/// for the other with a full pipe.
fn collect(child: &mut Child) -> mpsc::Receiver<Vec<u8>> {
    let (sender, receiver) = mpsc::channel();
    let mut output = child.stdout.take().expect("a piped output");
    thread::spawn(move || {
        let mut printed = Vec::new();
        let _ = output.read_to_end(&mut printed);
        let _ = sender.send(printed);
    });
    receiver
}
