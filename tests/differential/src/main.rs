//! The archive against reference/: the same cases to both, and every number compared; and the packed form of each case, of the archive
//! that is for tests and of reference/.
//!
//!     differential [SEED]
//!
//! With the same seed the cases are the same. A case that disagrees is made small and shown.

#[path = "../../../reference/tests/common/mod.rs"]
mod decks;

mod archive;
mod carried;
mod case;
mod changes;
mod edges;
mod face;
mod fenced;
mod figures;
mod heats;
mod limits;
mod met;
mod met_carried;
mod met_changes;
mod met_rows;
mod met_runs;
mod met_solids;
mod met_sources;
mod met_thin;
mod met_zones;
mod packed;
mod packed_face;
mod plan;
mod posted;
mod rows;
mod runs;
mod show;
mod shrink;
mod solids;
mod sources;
mod thin;
mod trial;
mod zones;

use std::process::ExitCode;
use std::time::Duration;

const SEED: u64 = 1;
const MOST: Duration = Duration::from_secs(600);

fn main() -> ExitCode {
    let seed = match std::env::args().nth(1).map(|word| word.parse()) {
        None => SEED,
        Some(Ok(seed)) => seed,
        Some(Err(_)) => {
            eprintln!("differential: a seed is a number");
            return ExitCode::from(2);
        }
    };
    // In decks of one element no row leaves a number out: the two forms are the same slices.
    figures::all(archive::call);
    figures::all(packed::call);
    figures::rows();
    figures::changes();
    figures::zones();
    println!("P1 to P12, the figures of the edge film, the tetrahedron, the residuals, thin triangles, radiation, starts, changes and zones out of the archive: as the papers have them");
    println!("seed {seed}");
    let mut trial = trial::Trial::new(seed, MOST);
    let lent = plan::LENT.into_iter().chain(runs::ALL);
    let parts = lent.chain(posted::ALL).chain(zones::ALL);
    let parts = parts.chain(plan::DAMAGED);
    for (name, part) in parts {
        let (cases, seconds) = (trial.cases(), trial.seconds());
        part(&mut trial);
        println!(
            "{:>8} cases {:>5.1} s  {name}",
            trial.cases() - cases,
            trial.seconds() - seconds
        );
    }
    if !trial.report() {
        return ExitCode::FAILURE;
    }
    if trial.is_over() {
        println!("the time was over before all cases were tried");
        return ExitCode::FAILURE;
    }
    println!(
        "{} cases, and every number agrees; {} decks after replacements, each as a fresh build",
        trial.cases(),
        trial.fresh()
    );
    ExitCode::SUCCESS
}
