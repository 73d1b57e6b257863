//! The step simulator in plain Rust, written from document 01 and
//! not from the proved code.
//!
//! It is the outside that the proved program is compared with, byte for byte,
//! and the measure of its speed. `records` and `fields` read a schedule, `board`
//! has the steps, `printout` the rows; here is the run from one to the other.

mod board;
mod call;
mod fields;
mod printout;
mod process;
mod records;
mod sizes;
mod slip;
mod word;

pub use board::Board;
pub use call::{Answer, Call, Refusal, Values, NO_VALUES};
pub use fields::{act_record, read_act, set_up_record, Act};
pub use process::{Access, Place, Process};
pub use records::{Record, Records};
pub use sizes::{Kind, Settings, MOST_PROCESSES, MOST_VARIABLES};

use fields::read_settings;
use printout::Printout;
use std::io::{self, Read, Write};

/// Refusal 12 comes after so many schedule records.
pub const MOST_RECORDS: u64 = 1_000_000;

/// Reads a whole schedule and prints the answers.
pub fn run(input: impl Read, output: impl Write, check_form: bool) -> io::Result<()> {
    let mut records = Records::new(input);
    let mut printout = Printout::new(output);
    if let Some(first) = records.next_record()? {
        match set_up(first, check_form) {
            Ok(board) => run_schedule(&mut records, board, &mut printout)?,
            Err(refusal) => printout.refused_set_up(refusal),
        }
    }
    printout.finish()
}

/// The set-up record's checks: 10, 11, then 1.
pub fn set_up(record: Record, check_form: bool) -> Result<Board, Refusal> {
    let fields = record.fields()?;
    Board::set_up(read_settings(&fields)?, check_form)
}

fn run_schedule<R: Read, W: Write>(
    records: &mut Records<R>,
    mut board: Board,
    printout: &mut Printout<W>,
) -> io::Result<()> {
    for number in 1.. {
        if number > MOST_RECORDS {
            if !records.at_end()? {
                printout.refused_record(number, Refusal::Limit);
            }
            break;
        }
        let Some(record) = records.next_record()? else {
            break;
        };
        match perform(record, &mut board) {
            Ok((process, act, answer)) => {
                printout.answered(number, process, act, answer, &board);
            }
            Err(refusal) => printout.refused_record(number, refusal),
        }
        printout.flush_if_full()?;
    }
    Ok(())
}

/// One schedule record: 10 and 11 before the board is asked.
pub fn perform(record: Record, board: &mut Board) -> Result<(u64, Act, Answer), Refusal> {
    let fields = record.fields()?;
    let (process, act) = read_act(&fields, board.segment_count())?;
    let answer = match act {
        Act::Begin(call, values) => board.begin(process, call, values),
        Act::Step => board.step(process),
    };
    Ok((process, act, answer))
}
