//! What the guest is to do, and what it must then show, by the program of reference/.
//!
//!     kernel SEED DIR
//!
//! Writes DIR/plan/commands, DIR/plan/few with those for a module that has few numbers, DIR/plan/ with the decks and cases that they
//! name, and DIR/expected. With the same seed, always the same.

#[path = "../../differential/src/carried.rs"]
mod carried;
#[path = "../../differential/src/case.rs"]
#[allow(dead_code)]
mod case;
#[path = "../../differential/src/changes.rs"]
#[allow(dead_code)]
mod changes;
#[path = "../../../reference/tests/common/mod.rs"]
mod decks;
#[path = "../../differential/src/edges.rs"]
mod edges;
#[path = "../../differential/src/heats.rs"]
mod heats;
#[path = "../../differential/src/limits.rs"]
mod limits;
#[path = "../../differential/src/met.rs"]
#[allow(dead_code)]
mod met;
#[path = "../../differential/src/met_carried.rs"]
#[allow(dead_code)]
mod met_carried;
#[path = "../../differential/src/met_changes.rs"]
#[allow(dead_code)]
mod met_changes;
#[path = "../../differential/src/met_rows.rs"]
#[allow(dead_code)]
mod met_rows;
#[path = "../../differential/src/met_solids.rs"]
#[allow(dead_code)]
mod met_solids;
#[path = "../../differential/src/met_sources.rs"]
#[allow(dead_code)]
mod met_sources;
#[path = "../../differential/src/met_thin.rs"]
#[allow(dead_code)]
mod met_thin;
#[path = "../../differential/src/plan.rs"]
#[allow(dead_code)]
mod plan;
#[path = "../../differential/src/rows.rs"]
mod rows;
#[path = "../../differential/src/solids.rs"]
mod solids;
#[path = "../../differential/src/sources.rs"]
mod sources;
#[path = "../../differential/src/thin.rs"]
mod thin;

mod commands;
mod model;
mod record;
mod trial;
mod words;

use record::Record;
use std::path::Path;
use std::process::ExitCode;
use trial::Trial;

fn main() -> ExitCode {
    let words: Vec<String> = std::env::args().skip(1).collect();
    let [seed, folder] = &words[..] else {
        eprintln!("usage: kernel SEED DIR");
        return ExitCode::from(2);
    };
    let Ok(seed) = seed.parse() else {
        eprintln!("kernel: a seed is a number");
        return ExitCode::from(2);
    };
    let mut record = Record::new(seed);
    commands::all(&mut record);
    let mut few = Record::with_room(seed, commands::FEW);
    commands::few(&mut few);
    let mut trial = Trial::new(seed);
    commands::lent(&mut trial);
    match record.write(few, trial, Path::new(folder)) {
        Ok(told) => println!("seed {seed}: {told}"),
        Err(error) => {
            eprintln!("kernel: {error}");
            return ExitCode::FAILURE;
        }
    }
    ExitCode::SUCCESS
}
