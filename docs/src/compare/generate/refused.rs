//! Records made to be refused, each for a chosen reason out of 4 to 11.

use super::writer::{fields, Body, Writer};

/// Numbers at and past the edges that a narrower number would fold back.
const GREAT: [&str; 8] = [
    "16", "17", "255", "256", "65536", "4294967296", "9223372036854775808", "18446744073709551615",
];

const NOT_IN_FORM: [&[u8]; 20] = [
    b"", b"00", b"01", b"007", b"+1", b"-1", b"-0", b" 1", b"1 ", b"1.0", b"0x1", b"1e3", b"a",
    b"18446744073709551616", b"18446744073709551620", b"99999999999999999999999999", b"\xd9\xa1",
    b"\xff", b"\0", b"1\0",
];

const NO_ACTS: [&[u8]; 12] =
    [b"", b"ll", b"Ll", b"vl", b"sc", b"Step", b"STEP", b"steps", b"LL ", b" SC", b"CAS", b"one"];

impl Writer<'_> {
    pub fn refused_record(&mut self) {
        let body = match self.random.below(10) {
            0 => self.process_too_great(),
            1 => self.variable_too_great(),
            2 => self.begin_in_call(),
            3 => self.no_sequence(),
            4 => self.value_too_great(),
            5 => self.step_of_idle(),
            6 | 7 => self.field_not_in_form(),
            _ => self.record_not_in_form(),
        };
        self.write(&body);
    }

    fn process_too_great(&mut self) -> Body {
        let process = self.too_great(self.board.settings().processes);
        let rest = self.random.pick(&["step,,,,,", "LL,0,,,,", "VL,99,,,,"]);
        format!("{process},{rest}").into_bytes()
    }

    fn variable_too_great(&mut self) -> Body {
        let process = self.someone();
        let var = self.too_great(self.board.settings().variables);
        let act = self.random.pick(&["LL", "VL"]);
        format!("{process},{act},{var},,,,").into_bytes()
    }

    /// The count that numbers must be below, or one of the great ones.
    fn too_great(&mut self, count: u64) -> String {
        match self.random.below(3) {
            0 => count.to_string(),
            _ => self.random.pick(&GREAT).to_string(),
        }
    }

    /// Whoever is in a call begins another: a load, or a store with a value
    /// too great or without a sequence, which 6 comes before.
    fn begin_in_call(&mut self) -> Body {
        let process = self.someone_who_is(true);
        let var = self.any_variable();
        match self.random.below(3) {
            0 => self.load(process),
            1 => self.store(process, var),
            _ => self.wide_store(process, var),
        }
    }

    fn no_sequence(&mut self) -> Body {
        let process = self.someone();
        let var = self.variable(process, false).unwrap_or(0);
        match self.random.below(3) {
            0 => self.validate(process, var),
            1 => self.store(process, var),
            _ => self.wide_store(process, var),
        }
    }

    fn value_too_great(&mut self) -> Body {
        let process = self.someone();
        let var = self.variable(process, true).unwrap_or(0);
        self.wide_store(process, var)
    }

    /// A store with one value of 2^(64 - b) or more among its W values.
    fn wide_store(&mut self, process: usize, var: u64) -> Body {
        let values = self.board.layout().values();
        let mut fields = fields(&self.store(process, var));
        let wide = self.random.pick(&[values, values + 1, u64::MAX]);
        let place = self.random.below(self.board.segment_count() as u64) as usize;
        fields[3 + place] = wide.to_string().into_bytes();
        fields.join(&b',')
    }

    fn step_of_idle(&mut self) -> Body {
        let process = self.someone_who_is(false);
        self.step(process)
    }

    /// Any of the four acts as it should be, to be spoilt.
    fn sound_record(&mut self) -> Body {
        let process = self.someone();
        let var = self.any_variable();
        match self.random.below(4) {
            0 => self.load(process),
            1 => self.validate(process, var),
            2 => self.store(process, var),
            _ => self.step(process),
        }
    }

    fn field_not_in_form(&mut self) -> Body {
        let mut fields = fields(&self.sound_record());
        let at = self.random.below(7) as usize;
        fields[at] = if at == 1 {
            self.random.pick(&NO_ACTS).to_vec()
        } else if fields[at].is_empty() {
            self.random.pick(&[&b"0"[..], b"7", b" ", b"x", b"\0"]).to_vec()
        } else {
            self.random.pick(&NOT_IN_FORM).to_vec()
        };
        fields.join(&b',')
    }

    fn record_not_in_form(&mut self) -> Body {
        let mut body = self.sound_record();
        let at = self.random.up_to(body.len());
        match self.random.below(8) {
            0 => body.clear(),
            1 => body.push(b','),
            2 => body.truncate(body.len() - 1),
            3 => body.insert(at, b'"'),
            4 => body.insert(at, b'\r'),
            5 => body.insert(at, b'\n'),
            6 => body = quoted(&body),
            _ => self.lengthen(&mut body),
        }
        body
    }

    /// Lengths round 512, round the reading buffer's 64 KiB, and far longer.
    fn lengthen(&mut self, body: &mut Body) {
        let wanted = match self.random.below(20) {
            0..=13 => self.random.between(506, 516),
            14..=17 => self.random.between(600, 3_000),
            18 => self.random.between(65_500, 65_600),
            _ => self.random.between(100_000, 200_000),
        } as usize;
        let fill = self.random.pick(b"x0, \n\xff");
        let at = self.random.up_to(body.len());
        let more = wanted.saturating_sub(body.len());
        body.splice(at..at, std::iter::repeat_n(fill, more));
    }
}

fn quoted(body: &[u8]) -> Body {
    let quoted: Vec<Body> =
        fields(body).into_iter().map(|field| [b"\"", &field[..], b"\""].concat()).collect();
    quoted.join(&b',')
}
