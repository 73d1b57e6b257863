//! Tells a difference: the schedule up to the record that differs, and both
//! printouts from there.

use std::fs;

/// Records and rows are cut here when shown.
const SHOWN_BYTES: usize = 600;

pub fn tell_difference(name: &str, schedule: &[u8], expected: &[u8], printed: &[u8]) {
    let (expected, printed) = (lines(expected), lines(printed));
    let same = expected.iter().zip(&printed).take_while(|(one, other)| one == other).count();
    println!("DIFFERENCE in {name}, at line {} of the printout", same + 1);
    println!("the schedule up to there:");
    tell_schedule(schedule, same + 1);
    println!("expected, from that line on:");
    tell_lines(&expected[same..]);
    println!("printed by the program compared:");
    tell_lines(&printed[same.min(printed.len())..]);
}

/// The first `count` records, and the whole of it in a file beside this program.
pub fn tell_schedule(schedule: &[u8], count: usize) {
    for record in lines(schedule).iter().take(count) {
        println!("  {}", shown(record));
    }
    let kept = std::env::current_exe().map(|path| path.with_file_name("difference.csv"));
    if let Ok(path) = kept {
        if fs::write(&path, schedule).is_ok() {
            println!("the whole schedule: difference.csv beside this program");
        }
    }
}

fn tell_lines(rest: &[&[u8]]) {
    for line in rest.iter().take(3) {
        println!("  {}", shown(line));
    }
    if rest.is_empty() {
        println!("  (nothing)");
    }
}

fn shown(line: &[u8]) -> String {
    let cut = &line[..line.len().min(SHOWN_BYTES)];
    let more =
        if cut.len() < line.len() { format!("... ({} bytes)", line.len()) } else { String::new() };
    format!("{}{more}", cut.escape_ascii())
}

/// Cut behind each CR LF, which stays with its line.
fn lines(bytes: &[u8]) -> Vec<&[u8]> {
    let mut result = Vec::new();
    let mut rest = bytes;
    while !rest.is_empty() {
        let end = rest.windows(2).position(|pair| pair == b"\r\n").map_or(rest.len(), |at| at + 2);
        let (line, behind) = rest.split_at(end);
        result.push(line);
        rest = behind;
    }
    result
}
