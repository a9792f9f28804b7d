//! What was met of zones: counts that must not stay at zero.

use crate::case::Lent;
use crate::zones::{How, Zones};

/// Acceptance, and each number up to 19.
const ANSWERS: usize = 20;

/// What each call must have met: a summary made afresh is not refused by what only a step asks.
const WANTED: [&[usize]; 2] = [&[0, 1, 9, 11, 18, 19], &[0, 1, 9, 10, 11, 12, 17, 18, 19]];

const THINGS: [&str; 12] = [
    "no zones",
    "16 zones",
    "a zone of 96 nodes",
    "no edges",
    "14 edges",
    "an edge at the coldest's temperature",
    "nodes of one temperature, the lowest not the first",
    "a node twice in a zone",
    "steps that changed no node",
    "steps that changed some zones and not others",
    "steps that left a stale zone as it was",
    "summaries longer than their zones",
];

#[derive(Default)]
pub struct Met {
    answers: [[u64; ANSWERS]; 2],
    things: [u64; 12],
}

/// A call: what it was lent, what it left and what it answered.
pub struct Seen<'a> {
    pub how: How,
    pub before: (&'a Lent, &'a Zones),
    pub after: (&'a Lent, &'a Zones),
    pub answer: u64,
}

impl Met {
    pub fn cases(&self) -> u64 {
        self.answers.iter().flatten().sum()
    }

    pub fn see(&mut self, seen: &Seen) {
        let number = (seen.answer & 255) as usize;
        self.answers[usize::from(seen.how == How::Step)][number] += 1;
        if number == 0 {
            self.accepted(seen);
        }
    }

    fn count(&mut self, which: usize, met: bool) {
        self.things[which] += u64::from(met);
    }

    fn accepted(&mut self, seen: &Seen) {
        let ((before, zones), (after, made)) = (seen.before, seen.after);
        self.count(0, zones.counts.is_empty());
        self.count(1, zones.counts.len() == 16);
        self.count(2, zones.counts.contains(&96));
        self.count(3, zones.edges.is_empty());
        self.count(4, zones.edges.len() == 14);
        self.count(11, zones.summary.len() > 3 * zones.counts.len());
        let (mut at, mut moved, mut still, mut stale) = (0, 0, 0, 0);
        for (z, &count) in zones.counts.iter().enumerate() {
            let zone = &zones.members[at..at + count as usize];
            at += count as usize;
            let row = &made.summary[3 * z..3 * z + 3];
            let ticks = |lent: &Lent, node: u32| lent.temperatures[node as usize - 1];
            let changed = |&node: &u32| ticks(before, node) != ticks(after, node);
            if seen.how == How::Step && !zone.iter().any(changed) {
                still += 1;
                let fresh = zone.iter().map(|&node| ticks(after, node)).min();
                let cold = row[0].checked_sub(1).map(|k| k as usize);
                let is = cold.and_then(|k| after.temperatures.get(k)).copied();
                stale += u64::from(is != fresh);
                continue;
            }
            moved += 1;
            let cold = ticks(after, row[0]);
            let at_edge = |&edge: &u32| i64::from(edge) == cold;
            self.count(5, zones.edges.iter().any(at_edge));
            let equal = |&&node: &&u32| ticks(after, node) == cold;
            self.count(6, zone.iter().find(equal) != Some(&row[0]));
            let mut nodes = zone.to_vec();
            nodes.sort_unstable();
            nodes.dedup();
            self.count(7, nodes.len() < zone.len());
        }
        if seen.how == How::Step {
            self.count(8, before.temperatures == after.temperatures);
            self.count(9, moved > 0 && still > 0);
            self.count(10, stale > 0);
        }
    }

    pub fn lines(&self) -> Vec<String> {
        let heads: String = (1..ANSWERS).map(|number| format!(" {number:>6}")).collect();
        let mut lines = vec![format!("{:8} {:>8} {:>8}{heads}", "zones", "cases", "done")];
        for (name, met) in ["afresh", "step"].iter().zip(&self.answers) {
            let counts: String = met[1..]
                .iter()
                .map(|count| format!(" {count:>6}"))
                .collect();
            let all: u64 = met.iter().sum();
            lines.push(format!("{name:8} {all:>8} {:>8}{counts}", met[0]));
        }
        let things = THINGS.iter().zip(&self.things);
        lines.extend(things.map(|(thing, count)| format!("{count:>8} {thing}")));
        lines
    }

    pub fn unmet(&self) -> Vec<String> {
        let mut unmet = Vec::new();
        for (name, (met, wanted)) in ["afresh", "step"]
            .iter()
            .zip(self.answers.iter().zip(WANTED))
        {
            let missing = wanted.iter().filter(|&&number| met[number] == 0);
            unmet.extend(missing.map(|number| format!("zones, {name}: {number}")));
        }
        let things = THINGS.iter().zip(&self.things);
        unmet.extend(
            things
                .filter(|(_, &count)| count == 0)
                .map(|(thing, _)| (*thing).to_string()),
        );
        unmet
    }
}
