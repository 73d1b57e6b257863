//! Records as RFC 4180 and document 01 have them: the input is cut into records,
//! each ending at its next CR LF, and a record into its seven fields.

use crate::call::Refusal;
use std::io::{self, Read};

const MOST_RECORD_BYTES: usize = 512;
const FIELDS: usize = 7;
/// Read and written so much at a time.
pub const BUFFER_BYTES: usize = 64 * 1024;

pub type Fields<'a> = [&'a [u8]; FIELDS];

/// One record without its closing pair.
#[derive(Clone, Copy, Debug)]
pub enum Record<'a> {
    Whole(&'a [u8]),
    /// Over 512 bytes with its pair. What it holds no longer matters.
    Overlong,
}

impl<'a> Record<'a> {
    /// Refusal 10, or the seven fields, each the part of the record it occupies.
    pub fn fields(self) -> Result<Fields<'a>, Refusal> {
        let Record::Whole(body) = self else {
            return Err(Refusal::Record);
        };
        let mut fields: Fields = [&[]; FIELDS];
        let (mut taken, mut start) = (0, 0);
        for (at, &byte) in body.iter().enumerate() {
            match byte {
                b'"' | b'\r' | b'\n' => return Err(Refusal::Record),
                b',' if taken + 1 == FIELDS => return Err(Refusal::Record),
                b',' => {
                    fields[taken] = &body[start..at];
                    taken += 1;
                    start = at + 1;
                }
                _ => {}
            }
        }
        if taken + 1 != FIELDS {
            return Err(Refusal::Record);
        }
        fields[taken] = &body[start..];
        Ok(fields)
    }
}

/// Takes constant memory however long a record is.
pub struct Records<R> {
    input: R,
    buffer: Vec<u8>,
    start: usize,
    end: usize,
    input_ended: bool,
}

impl<R: Read> Records<R> {
    pub fn new(input: R) -> Records<R> {
        Records { input, buffer: vec![0; BUFFER_BYTES], start: 0, end: 0, input_ended: false }
    }

    /// Whether no byte is left, and so no record.
    pub fn at_end(&mut self) -> io::Result<bool> {
        while self.start == self.end && !self.input_ended {
            self.fill()?;
        }
        Ok(self.start == self.end)
    }

    /// The next record. Bytes after the last pair are a record if there are any.
    pub fn next_record(&mut self) -> io::Result<Option<Record<'_>>> {
        let mut looked_at = 0;
        loop {
            let held = &self.buffer[self.start..self.end];
            if let Some(length) = find_pair(held, looked_at) {
                return Ok(Some(self.take(length, length + 2)));
            }
            if self.input_ended {
                let length = held.len();
                return Ok((length > 0).then(|| self.take(length, length)));
            }
            if held.len() > MOST_RECORD_BYTES {
                self.skip_past_pair()?;
                return Ok(Some(Record::Overlong));
            }
            // A CR at the end of what was looked at may open the pair.
            looked_at = held.len().saturating_sub(1);
            self.fill()?;
        }
    }

    /// `with_pair` counts the bytes that are there: a last record may lack its
    /// pair, which then does not count towards the 512.
    fn take(&mut self, length: usize, with_pair: usize) -> Record<'_> {
        let start = self.start;
        self.start += with_pair;
        if with_pair > MOST_RECORD_BYTES {
            return Record::Overlong;
        }
        Record::Whole(&self.buffer[start..start + length])
    }

    /// Drops everything up to and with the next pair. None is in the buffer.
    fn skip_past_pair(&mut self) -> io::Result<()> {
        loop {
            let ends_in_cr = self.buffer[self.start..self.end].ends_with(b"\r");
            self.start = self.end - usize::from(ends_in_cr);
            self.fill()?;
            let held = &self.buffer[self.start..self.end];
            if let Some(length) = find_pair(held, 0) {
                self.start += length + 2;
                return Ok(());
            }
            if self.input_ended {
                self.start = self.end;
                return Ok(());
            }
        }
    }

    /// Reads once more behind the bytes held, which are moved to the front.
    fn fill(&mut self) -> io::Result<()> {
        self.buffer.copy_within(self.start..self.end, 0);
        self.end -= self.start;
        self.start = 0;
        loop {
            match self.input.read(&mut self.buffer[self.end..]) {
                Ok(count) => {
                    self.end += count;
                    self.input_ended = count == 0;
                    return Ok(());
                }
                Err(error) if error.kind() == io::ErrorKind::Interrupted => {}
                Err(error) => return Err(error),
            }
        }
    }
}

/// Where the first CR LF lies that begins at `from` or later.
fn find_pair(bytes: &[u8], from: usize) -> Option<usize> {
    let mut from = from;
    loop {
        let at = from + bytes[from..].iter().position(|&byte| byte == b'\r')?;
        if bytes.get(at + 1) == Some(&b'\n') {
            return Some(at);
        }
        from = at + 1;
    }
}
