//! Runs cases on both programs, counts them, and stops at the first that disagrees.

use crate::case::Case;
use crate::decks::Chance;
use crate::met::Met;
use crate::show;
use std::process::exit;

/// Acceptance, 0, and the refusals up to the last one of an import.
const NUMBERS: usize = 17;
/// Those that an import has.
const OWN: [usize; 9] = [0, 1, 2, 3, 4, 9, 13, 15, 16];

pub struct Trial {
    pub chance: Chance,
    /// Cases by number.
    met: [u64; NUMBERS],
    things: Met,
}

impl Trial {
    pub fn new(seed: u64) -> Trial {
        Trial {
            chance: Chance::seeded(seed),
            met: [0; NUMBERS],
            things: Met::default(),
        }
    }

    /// Runs one case on both. They agree, or the program ends here.
    pub fn call(&mut self, case: Case) -> u64 {
        let (right, ours) = (case.by_reference(), case.by_archive());
        if right != ours {
            println!("an import disagrees; the case made small:");
            show::disagreement(&show::shrink(case));
            exit(1);
        }
        self.met[(ours.answer & 255) as usize] += 1;
        self.things.see(&case, &ours);
        ours.answer
    }

    pub fn cases(&self) -> u64 {
        self.met.iter().sum()
    }

    /// Prints what was met. Was every refusal, and each thing?
    pub fn report(&self) -> bool {
        for number in OWN {
            let name = if number == 0 { "done" } else { "refusal" };
            println!("{:>8} cases  {name} {number}", self.met[number]);
        }
        self.things.print();
        let unmet: Vec<usize> = OWN.into_iter().filter(|&n| self.met[n] == 0).collect();
        if !unmet.is_empty() {
            println!("answers not met: {unmet:?}");
        }
        let things = self.things.unmet();
        things.iter().for_each(|thing| println!("not met: {thing}"));
        unmet.is_empty() && things.is_empty()
    }
}
