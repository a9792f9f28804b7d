//! Runs cases on both programs, counts them, and stops at the first that disagrees.

use crate::case::{Call, Case, Lent, MATRICES};
use crate::decks::{kept_of, nodes_of, Chance, NUMBERS};
use crate::met::Met;
use crate::met_runs::Runs;
use crate::met_zones;
use crate::posted::Posted;
use crate::show;
use crate::shrink::shrink;
use crate::{carried, rows};
use std::process::exit;
use std::time::{Duration, Instant};

/// About a minute in all.
const EFFORT: u32 = 8;

pub struct Trial {
    pub chance: Chance,
    /// Cases by call and by number: 0 is acceptance.
    met: [[u64; NUMBERS]; 6],
    things: Met,
    runs: Runs,
    pub posted: Posted,
    zones: met_zones::Met,
    /// Decks after replacements that were compared with a fresh build.
    fresh: u64,
    began: Instant,
    most: Duration,
}

impl Trial {
    pub fn new(seed: u64, most: Duration) -> Trial {
        Trial {
            chance: Chance::seeded(seed),
            met: [[0; NUMBERS]; 6],
            things: Met::default(),
            runs: Runs::default(),
            posted: Posted::default(),
            zones: met_zones::Met::default(),
            fresh: 0,
            began: Instant::now(),
            most,
        }
    }

    /// EFFORT times `count`, or until the time is over.
    pub fn times(&self, count: u32) -> impl Iterator<Item = u32> {
        let (began, most) = (self.began, self.most);
        (0..EFFORT * count).take_while(move |_| began.elapsed() < most)
    }

    /// Runs one case on both. Where its deck is one, a step and a run also with residuals of any number and size in the place of its own; and
    /// in some cases each call that takes starts with others.
    pub fn call(&mut self, lent: &mut Lent, call: Call) -> u64 {
        let other = lent.clone();
        let answer = self.once(lent, call);
        if call.index() < 2 || (1..=4).contains(&(answer & 255)) {
            return answer;
        }
        if call.index() >= 4 {
            let mut other = other.clone();
            other.carried = carried::any(&mut self.chance, &other);
            self.once(&mut other, call);
        }
        if self.chance.one_in(4) {
            let mut other = other;
            other.starts = rows::any(&mut self.chance, &other);
            self.once(&mut other, call);
        }
        answer
    }

    /// They agree, or the program ends here.
    fn once(&mut self, lent: &mut Lent, call: Call) -> u64 {
        lent.part = [u64::MAX, 5];
        let case = Case {
            call,
            lent: std::mem::take(lent),
        };
        let (right, ours) = (case.by_reference(), case.by_archive());
        if right != ours || case.packed_apart(&ours).is_some() {
            println!(
                "a {} disagrees; the case made small:",
                Call::NAMES[call.index()]
            );
            show::disagreement(&shrink(case));
            exit(1);
        }
        self.met[call.index()][(ours.answer & 255) as usize] += 1;
        match call {
            Call::Run => self.runs.see(&case.lent, &ours),
            _ => self.things.see(call, &case.lent, &ours.lent, ours.answer),
        }
        *lent = ours.lent;
        ours.answer
    }

    /// Where the deck builds, P, A, the factor and the starts are what the archive makes of it afresh, or the program ends here. So many
    /// replacements of G cards and of V cards came before.
    pub fn as_built(&mut self, lent: &Lent, replaced: [u32; 2]) {
        let mut anew = lent.clone();
        anew.matrices[..3]
            .iter_mut()
            .for_each(|matrix| matrix.fill(0));
        anew.starts.fill(u32::MAX);
        if self.call(&mut anew, Call::Build) != 0 {
            return;
        }
        let (n, length) = (nodes_of(&lent.table), kept_of(&lent.table));
        let apart = |which: usize| lent.matrices[which][..length] != anew.matrices[which][..length];
        if let Some(which) = (0..3).find(|&which| apart(which)) {
            println!(
                "after replacements {} is not a fresh build's, of the table {:?}",
                MATRICES[which], lent.table
            );
            exit(1);
        }
        if lent.starts[..n] != anew.starts[..n] {
            println!(
                "after replacements the starts are not a fresh build's, of the table {:?}",
                lent.table
            );
            exit(1);
        }
        self.fresh += 1;
        self.things.as_built(replaced);
    }

    /// A run of that many changes was the same as the evening by fresh builds.
    pub fn as_by_hand(&mut self, changes: usize) {
        self.runs.as_by_hand(changes);
    }

    /// A call with zones, which agreed.
    pub fn zoned(&mut self, seen: &met_zones::Seen) {
        self.zones.see(seen);
    }

    pub fn fresh(&self) -> u64 {
        self.fresh
    }

    /// Whether cases may have been left out for want of time.
    pub fn is_over(&self) -> bool {
        self.began.elapsed() >= self.most
    }

    pub fn seconds(&self) -> f64 {
        self.began.elapsed().as_secs_f64()
    }

    pub fn cases(&self) -> u64 {
        self.met.iter().flatten().sum::<u64>() + self.zones.cases()
    }

    /// Prints what was met. Was every refusal, and all of G, of heats, of residuals, of V, of thin triangles, of starts, of C, of R, of runs, of
    /// changes in two orders and of zones?
    pub fn report(&self) -> bool {
        print!("{:8} {:>8} {:>8}", "call", "cases", "done");
        (1..NUMBERS).for_each(|number| print!(" {number:>6}"));
        println!();
        for (name, met) in Call::NAMES.iter().zip(&self.met) {
            print!("{name:8} {:>8} {:>8}", met.iter().sum::<u64>(), met[0]);
            met[1..].iter().for_each(|count| print!(" {count:>6}"));
            println!();
        }
        // 15 and 16 are of records.
        let unmet: Vec<usize> = (1..15)
            .chain([17])
            .filter(|&number| self.met.iter().all(|met| met[number] == 0))
            .collect();
        if !unmet.is_empty() {
            println!("refusals not met: {unmet:?}");
        }
        self.things
            .lines()
            .iter()
            .for_each(|line| println!("{line}"));
        self.runs.lines().iter().for_each(|line| println!("{line}"));
        let posted = self.posted.lines();
        posted.iter().for_each(|line| println!("{line}"));
        let zones = self.zones.lines();
        zones.iter().for_each(|line| println!("{line}"));
        let mut things = self.things.unmet();
        things.extend(self.runs.unmet());
        things.extend(self.posted.unmet());
        things.extend(self.zones.unmet());
        things.iter().for_each(|thing| println!("not met: {thing}"));
        unmet.is_empty() && things.is_empty()
    }
}
