//! Waveform zones, request [13]: up to 16 zones of 1 to 96 nodes each and up to 14 rising band edges, and of each zone its coldest and
//! hottest node and the band of the coldest, made afresh or kept over a step.

use crate::answer::*;
use crate::calls;
use crate::card::MAX_NODES;
use crate::judge::Deck;
use crate::kept::Kept;
use crate::step::on_scale;
use std::cmp::Reverse;

const MAX_ZONES: usize = 16;
const MAX_EDGES: usize = 14;

/// The summary of the temperatures, made afresh: three numbers a zone.
pub fn summarise(
    table: &[u32],
    temperatures: &[i64],
    counts: &[u32],
    members: &[u32],
    edges: &[u32],
    summary: &mut [u32],
) -> Answer {
    let zones = Zones {
        counts,
        members,
        edges,
    };
    zones.summarise(table, temperatures, summary).into()
}

/// One step, then the zones with a changed node. Refused, it leaves all as it was.
#[allow(clippy::too_many_arguments)]
pub fn step(
    table: &[u32],
    p: &[i64],
    a: &[i64],
    factor: &[i64],
    starts: &[u32],
    temperatures: &mut [i64],
    carried: &mut [i64],
    counts: &[u32],
    members: &[u32],
    edges: &[u32],
    summary: &mut [u32],
) -> Stepped {
    let zones = Zones {
        counts,
        members,
        edges,
    };
    let lent = [p, a, factor];
    let both = [temperatures, carried];
    zones.step(table, lent, starts, both, summary).into()
}

struct Zones<'a> {
    counts: &'a [u32],
    members: &'a [u32],
    edges: &'a [u32],
}

impl<'a> Zones<'a> {
    fn summarise(
        &self,
        table: &[u32],
        temperatures: &[i64],
        summary: &mut [u32],
    ) -> Result<(), Refusal> {
        let n = Deck::judge(table)?.counts.nodes;
        let temperatures = temperatures.get(..n).ok_or(Refusal::whole(SHORT))?;
        self.room(summary)?;
        on_scale(temperatures)?;
        self.judge(n)?;
        for (zone, row) in self.each().zip(summary.chunks_exact_mut(3)) {
            row.copy_from_slice(&self.three(zone, temperatures));
        }
        Ok(())
    }

    fn step(
        &self,
        table: &[u32],
        lent: [&[i64]; 3],
        starts: &[u32],
        [temperatures, carried]: [&mut [i64]; 2],
        summary: &mut [u32],
    ) -> Result<u32, Refusal> {
        let n = Deck::judge(table)?.counts.nodes;
        self.room(summary)?;
        // On copies, since what is wrong of the zones comes last and must leave all as it was.
        let [mut new, mut left] = [[0; MAX_NODES]; 2];
        let new = copied(temperatures, &mut new);
        let left = copied(carried, &mut left);
        let corrections = calls::step::<Kept>(table, lent, starts, new, left)?;
        self.judge(n)?;
        for (zone, row) in self.each().zip(summary.chunks_exact_mut(3)) {
            let changed = |&node: &u32| new[node as usize - 1] != temperatures[node as usize - 1];
            if zone.iter().any(changed) {
                row.copy_from_slice(&self.three(zone, new));
            }
        }
        temperatures[..n].copy_from_slice(&new[..n]);
        carried[..n].copy_from_slice(&left[..n]);
        Ok(corrections)
    }

    /// Refusal 9: members for all counts, and three numbers a zone.
    fn room(&self, summary: &[u32]) -> Result<(), Refusal> {
        let all: u64 = self.counts.iter().map(|&count| u64::from(count)).sum();
        if all > self.members.len() as u64 || summary.len() < 3 * self.counts.len() {
            return Err(Refusal::whole(SHORT));
        }
        Ok(())
    }

    /// Refusals 1, 18 and 19, of a deck of n nodes.
    fn judge(&self, n: usize) -> Result<(), Refusal> {
        let large = |&count: &u32| count as usize > MAX_NODES;
        if self.counts.len() > MAX_ZONES
            || self.edges.len() > MAX_EDGES
            || self.counts.iter().any(large)
        {
            return Err(Refusal::whole(LENGTH));
        }
        let inside = |&node: &u32| (1..=n as u32).contains(&node);
        let right = |zone: &[u32]| !zone.is_empty() && zone.iter().all(inside);
        if let Some(zone) = self.each().position(|zone| !right(zone)) {
            return Err(Refusal::at_index(ZONE, zone));
        }
        let mut pairs = self.edges.windows(2);
        match pairs.position(|pair| pair[1] <= pair[0]) {
            Some(before) => Err(Refusal::at_index(EDGE, before + 1)),
            None => Ok(()),
        }
    }

    /// The nodes of each zone, in turn.
    fn each(&self) -> impl Iterator<Item = &'a [u32]> + '_ {
        let mut rest = self.members;
        self.counts.iter().map(move |&count| {
            let (zone, more) = rest.split_at(count as usize);
            rest = more;
            zone
        })
    }

    /// The coldest node, the hottest, and the number of edges at or below the coldest's temperature. Of a zone that is not empty.
    fn three(&self, zone: &[u32], temperatures: &[i64]) -> [u32; 3] {
        let warmth = |node: u32| temperatures[node as usize - 1];
        let nodes = || zone.iter().copied();
        let cold = nodes().min_by_key(|&node| (warmth(node), node));
        let hot = nodes().max_by_key(|&node| (warmth(node), Reverse(node)));
        let (cold, hot) = cold.zip(hot).expect("a zone has a node");
        let reached = |&&edge: &&u32| i64::from(edge) <= warmth(cold);
        let band = self.edges.iter().filter(reached).count();
        [cold, hot, band as u32]
    }
}

/// As many of a lent slice's numbers as a deck can have nodes.
fn copied<'a>(slice: &[i64], room: &'a mut [i64; MAX_NODES]) -> &'a mut [i64] {
    let length = slice.len().min(MAX_NODES);
    room[..length].copy_from_slice(&slice[..length]);
    &mut room[..length]
}
