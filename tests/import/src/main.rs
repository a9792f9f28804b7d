//! The archive of gormulast_import against reference/: the same cases to both, and every number compared.
//!
//!     import [SEED]
//!
//! With the same seed the cases are the same. A case that disagrees is made small and shown.

#[path = "../../../reference/tests/common/mod.rs"]
mod decks;
#[path = "../../differential/src/fenced.rs"]
mod fenced;

mod archive;
mod case;
mod figures;
mod met;
mod plan;
mod show;
mod trial;

use std::process::ExitCode;

const SEED: u64 = 1;

fn main() -> ExitCode {
    let seed = match std::env::args().nth(1).map(|word| word.parse()) {
        None => SEED,
        Some(Ok(seed)) => seed,
        Some(Err(_)) => {
            eprintln!("import: a seed is a number");
            return ExitCode::from(2);
        }
    };
    figures::all();
    println!("the figures of records out of the archive: as the request has them");
    println!("seed {seed}");
    let mut trial = trial::Trial::new(seed);
    for (name, part) in plan::PARTS {
        let cases = trial.cases();
        part(&mut trial);
        println!("{:>8} cases  {name}", trial.cases() - cases);
    }
    if !trial.report() {
        return ExitCode::FAILURE;
    }
    println!("{} cases, and every number agrees", trial.cases());
    ExitCode::SUCCESS
}
