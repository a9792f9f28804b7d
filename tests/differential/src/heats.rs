//! The heat of an element, weighed at each of its corners to a unit. `tests/kernel` takes this file too.

use crate::case::{Call, Lent};
use crate::decks::{firsts, shrunk, starts_of, Scales};
use crate::trial::Trial;

/// Heats of every remainder, corners in every order and some of them the same: each node against its load, and against one
/// more and one less of it. By chance a unit of load is hardly ever seen.
pub fn shares(trial: &mut Trial) {
    for corners in Scales::corners() {
        for microwatts in Scales::HEATS {
            let third = 65_536 * i64::from(microwatts) / 3;
            let thirds = Scales::loads(&corners, third);
            for more in 0..4 {
                let loads = thirds.map(|load| load + more);
                weigh(trial, Scales::new(corners, microwatts, loads));
            }
        }
    }
}

/// The same of tetrahedra: a quarter is always whole.
pub fn quarters(trial: &mut Trial) {
    for [i, j, k] in Scales::corners().step_by(5) {
        for microwatts in Scales::HEATS {
            let quarter = 16_384 * i64::from(microwatts);
            for corners in [[i, j, k, i], [k, i, j, j]] {
                let loads = Scales::loads(&corners, quarter);
                for more in 0..2 {
                    let loads = loads.map(|load| load + more);
                    weigh(trial, Scales::new_solid(corners, microwatts, loads));
                }
            }
        }
    }
}

pub fn weigh(trial: &mut Trial, it: Scales) {
    let firsts = firsts(&it.table);
    let work = vec![7; it.p.len()];
    let matrices = [it.p, it.a, it.factor, work].map(|packed| shrunk(&firsts, &packed));
    let mut lent = Lent {
        starts: starts_of(&it.table),
        table: it.table,
        matrices,
        temperatures: it.temperatures,
        carried: it.carried,
        ..Lent::default()
    };
    trial.call(&mut lent, Call::Step);
}
