//! Waveform zones, by the words of request [13].

mod common;

use common::*;
use reference::zones::{step, summarise};

/// A summary by the words: over each zone's list, and nothing else.
fn by_words(temperatures: &[i64], zones: &[Vec<u32>], edges: &[u32]) -> Vec<u32> {
    let mut summary = vec![];
    for zone in zones {
        let ticks = |node: u32| temperatures[node as usize - 1];
        let mut nodes = zone.clone();
        nodes.sort_unstable();
        let (mut cold, mut hot) = (nodes[0], nodes[0]);
        for &node in &nodes {
            if ticks(node) < ticks(cold) {
                cold = node;
            }
            if ticks(node) > ticks(hot) {
                hot = node;
            }
        }
        let mut band = 0;
        for &edge in edges {
            if i64::from(edge) <= ticks(cold) {
                band += 1;
            }
        }
        summary.extend([cold, hot, band]);
    }
    summary
}

fn some_zones(chance: &mut Chance, n: u32) -> Vec<Vec<u32>> {
    let many = chance.within(0, 16);
    (0..many)
        .map(|_| {
            let count = chance.within(1, n);
            (0..count).map(|_| chance.within(1, n)).collect()
        })
        .collect()
}

fn flat(zones: &[Vec<u32>]) -> (Vec<u32>, Vec<u32>) {
    let counts = zones.iter().map(|zone| zone.len() as u32).collect();
    (counts, zones.concat())
}

fn some_edges(chance: &mut Chance) -> Vec<u32> {
    let many = chance.within(0, 14);
    let mut edges: Vec<u32> = (0..many)
        .map(|_| 19_660_780 + chance.within(0, 60))
        .collect();
    edges.sort_unstable();
    edges.dedup();
    edges
}

#[test]
fn afresh_and_over_steps() {
    let mut chance = Chance::seeded(13);
    let (mut moved, mut still) = (0, 0);
    for _ in 0..400 {
        let (columns, rows) = (chance.within(2, 4), chance.within(2, 4));
        let mut lent = KeptLent::built(Groups::sheet(&mut chance, columns, rows).table());
        let n = nodes_of(&lent.table);
        for ticks in &mut lent.temperatures[..n] {
            *ticks = 19_660_800 + i64::from(chance.within(0, 20));
        }
        let zones = some_zones(&mut chance, n as u32);
        let (counts, members) = flat(&zones);
        let edges = some_edges(&mut chance);
        let mut summary = vec![9; 3 * zones.len() + 2];
        let answer = summarise(
            &lent.table,
            &lent.temperatures,
            &counts,
            &members,
            &edges,
            &mut summary,
        );
        assert_eq!(answer.packed(), 0);
        let mut right = by_words(&lent.temperatures, &zones, &edges);
        right.extend([9, 9]);
        assert_eq!(summary, right);
        for _ in 0..3 {
            let before = (lent.temperatures.clone(), summary.clone());
            // The first zone is made stale: it stays so unless one of its nodes changes.
            if let Some(number) = summary.get_mut(2) {
                *number = 77;
            }
            let mut alone = lent.clone();
            let answer = alone.step();
            let zoned = step(
                &lent.table,
                &lent.p,
                &lent.a,
                &lent.factor,
                &lent.starts,
                &mut lent.temperatures,
                &mut lent.carried,
                &counts,
                &members,
                &edges,
                &mut summary,
            );
            assert_eq!(zoned, answer);
            assert_eq!(lent, alone);
            let mut right = by_words(&lent.temperatures, &zones, &edges);
            right.extend([9, 9]);
            if let Some(zone) = zones.first() {
                let changed = |&node: &u32| {
                    before.0[node as usize - 1] != lent.temperatures[node as usize - 1]
                };
                if zone.iter().any(changed) {
                    moved += 1;
                } else {
                    still += 1;
                    right[2] = 77;
                    assert_eq!(summary[..3], [before.1[0], before.1[1], 77]);
                }
            }
            assert_eq!(summary, right);
            if let Some(zone) = zones.first() {
                summary[..3].copy_from_slice(&by_words(
                    &lent.temperatures,
                    std::slice::from_ref(zone),
                    &edges,
                ));
            }
        }
    }
    assert!(moved > 100 && still > 20, "{moved} {still}");
}

#[test]
fn refusals_in_turn() {
    let lent = KeptLent::built(Groups::base().table());
    let afresh = |counts: &[u32], members: &[u32], edges: &[u32], long: usize| {
        let mut summary = vec![9; long];
        let answer = summarise(
            &lent.table,
            &lent.temperatures,
            counts,
            members,
            edges,
            &mut summary,
        );
        if answer.packed() != 0 {
            assert!(summary.iter().all(|&number| number == 9));
        }
        answer.packed()
    };
    let place = 65_536;
    assert_eq!(afresh(&[2], &[1], &[2, 1], 3), 9);
    assert_eq!(afresh(&[2], &[1, 2], &[2, 1], 2), 9);
    assert_eq!(afresh(&[0; 17], &[], &[2, 1], 51), 1);
    assert_eq!(afresh(&[97], &[0; 97], &[2, 1], 3), 1);
    assert_eq!(afresh(&[1], &[0], &[0; 15], 3), 1);
    assert_eq!(afresh(&[1, 0, 1], &[1, 4], &[2, 1], 9), 18 + 2 * place);
    assert_eq!(afresh(&[1, 1], &[1, 4], &[2, 1], 9), 18 + 2 * place);
    assert_eq!(afresh(&[1, 1], &[0, 4], &[2, 1], 9), 18 + place);
    assert_eq!(afresh(&[1, 1], &[1, 3], &[1, 2, 2], 9), 19 + 3 * place);
    assert_eq!(afresh(&[1, 1], &[1, 3], &[1, 0, 0], 9), 19 + 2 * place);
    assert_eq!(afresh(&[], &[], &[], 0), 0);
    assert_eq!(afresh(&[96], &[1; 96], &[1, 2], 3), 0);
}
