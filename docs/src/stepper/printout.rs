//! The printout: the heading and one row for each record, gathered and written
//! out a buffer at a time.

use crate::board::Board;
use crate::call::{Answer, Refusal, NO_VALUES};
use crate::fields::Act;
use crate::records::BUFFER_BYTES;
use std::io::{self, Write};

const HEADING: &[u8] = b"no,process,act,answer,open,v0,v1,v2,v3\r\n";
/// A row is shorter: seven numbers of 20 digits, two words, commas, CR LF.
const ROOM_FOR_ROW: usize = 256;

pub struct Printout<W> {
    output: W,
    lines: Vec<u8>,
}

impl<W: Write> Printout<W> {
    pub fn new(output: W) -> Printout<W> {
        let mut lines = Vec::with_capacity(BUFFER_BYTES);
        lines.extend_from_slice(HEADING);
        Printout { output, lines }
    }

    pub fn refused_set_up(&mut self, refusal: Refusal) {
        self.lines.extend_from_slice(b"0,,setup");
        self.refused(refusal);
    }

    /// A record refused 10, 11 or 12: process, act and open stay blank.
    pub fn refused_record(&mut self, number: u64, refusal: Refusal) {
        push_number(&mut self.lines, number);
        self.lines.extend_from_slice(b",,");
        self.refused(refusal);
    }

    fn refused(&mut self, refusal: Refusal) {
        self.lines.extend_from_slice(b",refused,,");
        push_number(&mut self.lines, refusal.number());
        self.lines.extend_from_slice(b",,,\r\n");
    }

    pub fn answered(&mut self, number: u64, process: u64, act: Act, answer: Answer, board: &Board) {
        let lines = &mut self.lines;
        push_number(lines, number);
        lines.push(b',');
        push_number(lines, process);
        lines.push(b',');
        lines.extend_from_slice(act.name().as_bytes());
        lines.push(b',');
        lines.extend_from_slice(answer_name(answer).as_bytes());
        lines.push(b',');
        if let Ok(count) = board.open_count(process) {
            push_number(lines, count);
        }
        push_answer_values(lines, answer, board.segment_count());
        lines.extend_from_slice(b"\r\n");
    }

    pub fn flush_if_full(&mut self) -> io::Result<()> {
        if self.lines.len() + ROOM_FOR_ROW > BUFFER_BYTES {
            self.output.write_all(&self.lines)?;
            self.lines.clear();
        }
        Ok(())
    }

    pub fn finish(mut self) -> io::Result<()> {
        self.output.write_all(&self.lines)?;
        self.output.flush()
    }
}

fn answer_name(answer: Answer) -> &'static str {
    match answer {
        Answer::Begun => "begun",
        Answer::Busy => "busy",
        Answer::Value(_) => "value",
        Answer::Witness(_) => "witness",
        Answer::Yes => "yes",
        Answer::No => "no",
        Answer::Refused(_) => "refused",
    }
}

/// The four value fields, each behind its comma.
fn push_answer_values(line: &mut Vec<u8>, answer: Answer, segments: usize) {
    let (values, count) = match answer {
        Answer::Value(values) => (values, segments),
        Answer::Witness(process) => ([process, 0, 0, 0], 1),
        Answer::Refused(refusal) => ([refusal.number(), 0, 0, 0], 1),
        Answer::Begun | Answer::Busy | Answer::Yes | Answer::No => (NO_VALUES, 0),
    };
    for (place, &value) in values.iter().enumerate() {
        line.push(b',');
        if place < count {
            push_number(line, value);
        }
    }
}

fn push_number(line: &mut Vec<u8>, number: u64) {
    let mut digits = [0; 20];
    let mut at = digits.len();
    let mut rest = number;
    loop {
        at -= 1;
        digits[at] = b'0' + (rest % 10) as u8;
        rest /= 10;
        if rest == 0 {
            break;
        }
    }
    line.extend_from_slice(&digits[at..]);
}
