//! Every order of begins and steps on small boards, each answer held against
//! atomic LL, VL and SC run beside it.
//!
//! Orders that lead to the same state are followed once. The number of
//! successful stores is bounded, and so the number of states: orders are
//! followed until none leads to a new one.
//!
//! Ends with 0 if every answer was right, with 1 otherwise.

mod onlooker;
mod state;
mod walk;

use std::process::ExitCode;
use std::time::{Duration, Instant};
use stepper::{act_record, set_up_record, Kind, Settings};
use walk::{Answers, Violation, Walk};

struct Exploration {
    settings: Settings,
    /// Orders with more successful stores than this are left out.
    stores: usize,
}

const fn board(kind: Kind, processes: u64, variables: u64, segments: u64) -> Settings {
    let tag_bits = 4;
    Settings { kind, processes, variables, tag_bits, segments }
}

/// Demand 3's premise at b = 4: with one variable these orders are all of it.
const PREMISE: usize = 14;

const EXPLORATIONS: [Exploration; 6] = [
    Exploration { settings: board(Kind::One, 2, 1, 1), stores: PREMISE },
    Exploration { settings: board(Kind::Many, 2, 1, 1), stores: PREMISE },
    Exploration { settings: board(Kind::Many, 2, 1, 2), stores: PREMISE },
    Exploration { settings: board(Kind::Many, 3, 1, 1), stores: 2 },
    Exploration { settings: board(Kind::Many, 1, 2, 1), stores: PREMISE },
    Exploration { settings: board(Kind::Many, 2, 2, 1), stores: 3 },
];

fn main() -> ExitCode {
    let arguments: Vec<String> = std::env::args().skip(1).collect();
    let stores = match &arguments[..] {
        [] => Ok(None),
        [option, count] if option == "--stores" => count.parse().map(Some).map_err(drop),
        _ => Err(()),
    };
    let Ok(stores) = stores else {
        eprintln!("usage: exhaustive [--stores N]   N instead of each board's own bound");
        return ExitCode::from(2);
    };
    let started = Instant::now();
    for exploration in EXPLORATIONS {
        let stores = stores.unwrap_or(exploration.stores);
        if !explore(&Exploration { stores, ..exploration }) {
            return ExitCode::FAILURE;
        }
    }
    println!("every answer as it must be, in {:.1} s", started.elapsed().as_secs_f64());
    ExitCode::SUCCESS
}

fn explore(exploration: &Exploration) -> bool {
    let began = Instant::now();
    let mut walk = Walk::new(exploration);
    let result = walk.walk();
    match &result {
        Ok(depth) => tell(&walk, *depth, began.elapsed()),
        Err(violation) => tell_violation(exploration, violation),
    }
    result.is_ok()
}

fn tell(walk: &Walk, depth: u32, taken: Duration) {
    let Exploration { settings, stores } = walk.exploration;
    println!("{} all orders of any length with at most {stores} stores:", set_up_record(settings));
    println!(
        "    {} states, the farthest after {depth} begins and steps, in {:.1} s",
        walk.states_found(),
        taken.as_secs_f64(),
    );
    let Answers { values, witnesses, yes, no } = walk.answers;
    println!("    answers checked: {values} values, {witnesses} witnesses, {yes} yes, {no} no");
}

/// The order is told as a schedule, so that it can be run.
fn tell_violation(exploration: &Exploration, violation: &Violation) {
    let settings = &exploration.settings;
    println!("VIOLATION: {}", violation.rule);
    println!("{}", set_up_record(settings));
    for event in &violation.order {
        println!("{}", act_record(event.process, event.act, settings.segments as usize));
    }
}
