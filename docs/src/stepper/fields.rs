//! What the fields of a record say: read from their bytes with refusal 11, and
//! written the other way round for the programs that make schedules.

use crate::call::{Call, Refusal, Values, NO_VALUES};
use crate::records::Fields;
use crate::sizes::{Kind, Settings};

/// What a schedule record has its process do.
#[derive(Clone, Copy, PartialEq, Eq, Debug)]
pub enum Act {
    Begin(Call, Values),
    Step,
}

impl Act {
    pub fn name(self) -> &'static str {
        match self {
            Act::Begin(Call::Load(_), _) => "LL",
            Act::Begin(Call::Validate(_), _) => "VL",
            Act::Begin(Call::Store(_), _) => "SC",
            Act::Step => "step",
        }
    }
}

// ---------------------------------------------------------------- Read

/// Decimal, no sign, no leading zero but 0 itself, below 2^64.
fn read_number(field: &[u8]) -> Result<u64, Refusal> {
    if field.is_empty() || (field[0] == b'0' && field.len() > 1) {
        return Err(Refusal::Field);
    }
    let mut number = 0u64;
    for &byte in field {
        if !byte.is_ascii_digit() {
            return Err(Refusal::Field);
        }
        let shifted = number.checked_mul(10).ok_or(Refusal::Field)?;
        number = shifted.checked_add(u64::from(byte - b'0')).ok_or(Refusal::Field)?;
    }
    Ok(number)
}

fn all_blank(fields: &[&[u8]]) -> Result<(), Refusal> {
    if fields.iter().all(|field| field.is_empty()) {
        Ok(())
    } else {
        Err(Refusal::Field)
    }
}

/// N, kind, T, b, W, two blanks. Every field is read before a size is judged.
pub fn read_settings(fields: &Fields) -> Result<Settings, Refusal> {
    let kind = match fields[1] {
        b"one" => Kind::One,
        b"many" => Kind::Many,
        _ => return Err(Refusal::Field),
    };
    all_blank(&fields[5..])?;
    Ok(Settings {
        kind,
        processes: read_number(fields[0])?,
        variables: read_number(fields[2])?,
        tag_bits: read_number(fields[3])?,
        segments: read_number(fields[4])?,
    })
}

/// Process, act, variable, four values: each there exactly if the act needs it.
pub fn read_act(fields: &Fields, segments: usize) -> Result<(u64, Act), Refusal> {
    let process = read_number(fields[0])?;
    let act = match fields[1] {
        b"step" => {
            all_blank(&fields[2..])?;
            Act::Step
        }
        b"LL" => Act::Begin(Call::Load(read_lone_variable(fields)?), NO_VALUES),
        b"VL" => Act::Begin(Call::Validate(read_lone_variable(fields)?), NO_VALUES),
        b"SC" => {
            let values = read_values(&fields[3..], segments)?;
            Act::Begin(Call::Store(read_number(fields[2])?), values)
        }
        _ => return Err(Refusal::Field),
    };
    Ok((process, act))
}

/// The variable of a call without values.
fn read_lone_variable(fields: &Fields) -> Result<u64, Refusal> {
    all_blank(&fields[3..])?;
    read_number(fields[2])
}

fn read_values(fields: &[&[u8]], segments: usize) -> Result<Values, Refusal> {
    let mut values = NO_VALUES;
    for (value, field) in values.iter_mut().zip(&fields[..segments]) {
        *value = read_number(field)?;
    }
    all_blank(&fields[segments..])?;
    Ok(values)
}

// ---------------------------------------------------------------- Written

pub fn set_up_record(settings: &Settings) -> String {
    let Settings { kind, processes, variables, tag_bits, segments } = settings;
    format!("{processes},{},{variables},{tag_bits},{segments},,", kind.name())
}

pub fn act_record(process: usize, act: Act, segments: usize) -> String {
    let name = act.name();
    match act {
        Act::Step => format!("{process},{name},,,,,"),
        Act::Begin(Call::Load(var) | Call::Validate(var), _) => {
            format!("{process},{name},{var},,,,")
        }
        Act::Begin(Call::Store(var), values) => {
            let mut record = format!("{process},{name},{var}");
            for (place, value) in values.iter().enumerate() {
                record.push(',');
                if place < segments {
                    record += &value.to_string();
                }
            }
            record
        }
    }
}
