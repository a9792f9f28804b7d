//! Waveform zones: a summary made afresh, and a step that keeps one, against reference/ and against the other calls of the archive.

use crate::case::{Call, Lent, MATRICES};
use crate::decks::{nodes_of, Chance, Groups, TOP};
use crate::face::{gormulast_zones, gormulast_zones_step};
use crate::fenced::Fenced;
use crate::met_zones::Seen;
use crate::plan::{deck, lend, shorten, strange, warm, Part};
use crate::trial::Trial;
use reference::zones as right;
use std::process::exit;

pub const ALL: [Part; 6] = [
    ("zones by chance, afresh and over steps", by_chance),
    ("from no zones to seventeen, and one node too many", counts),
    ("an empty zone, or a wrong node, in each zone", wrong),
    ("edges equal and falling at each place", edges),
    ("summaries and members short, exact and long", lengths),
    ("zones with what a step is refused for", refused),
];

/// What is lent of zones.
#[derive(Clone, Default, PartialEq, Debug)]
pub struct Zones {
    pub counts: Vec<u32>,
    pub members: Vec<u32>,
    pub edges: Vec<u32>,
    pub summary: Vec<u32>,
}

#[derive(Clone, Copy, PartialEq, Debug)]
pub enum How {
    Afresh,
    Step,
}

#[derive(Clone, PartialEq)]
pub struct Outcome {
    pub answer: u64,
    pub lent: Lent,
    pub zones: Zones,
}

fn by_reference(how: How, lent: &Lent, zones: &Zones) -> Outcome {
    let (mut lent, mut zones) = (lent.clone(), zones.clone());
    let [p, a, factor, _] = &lent.matrices;
    let (table, starts) = (&lent.table, &lent.starts);
    let (temperatures, carried) = (&mut lent.temperatures, &mut lent.carried);
    let Zones {
        counts,
        members,
        edges,
        summary,
    } = &mut zones;
    let answer = match how {
        How::Afresh => {
            right::summarise(table, temperatures, counts, members, edges, summary).packed()
        }
        How::Step => right::step(
            table,
            p,
            a,
            factor,
            starts,
            temperatures,
            carried,
            counts,
            members,
            edges,
            summary,
        )
        .packed(),
    };
    Outcome {
        answer,
        lent,
        zones,
    }
}

/// The archive's, with every slice between fences.
pub fn by_archive(how: How, lent: &Lent, zones: &Zones) -> Outcome {
    const MARK: i64 = i64::MIN + 77;
    const SHORT_MARK: u32 = 0xA5A5_A5A5;
    let (mut lent, mut zones) = (lent.clone(), zones.clone());
    let mut table = Fenced::new(&lent.table, SHORT_MARK);
    let mut starts = Fenced::new(&lent.starts, SHORT_MARK);
    let mut temperatures = Fenced::new(&lent.temperatures, MARK);
    let mut carried = Fenced::new(&lent.carried, MARK);
    let [mut p, mut a, mut factor, work] = lent
        .matrices
        .each_ref()
        .map(|matrix| Fenced::new(matrix, MARK));
    let mut counts = Fenced::new(&zones.counts, SHORT_MARK);
    let mut members = Fenced::new(&zones.members, SHORT_MARK);
    let mut edges = Fenced::new(&zones.edges, SHORT_MARK);
    let mut summary = Fenced::new(&zones.summary, SHORT_MARK);

    // Safety: each pointer is good for the length beside it, and no two of them overlap.
    let answer = unsafe {
        match how {
            How::Afresh => gormulast_zones(
                table.pointer(),
                table.length(),
                temperatures.pointer(),
                temperatures.length(),
                counts.pointer(),
                counts.length(),
                members.pointer(),
                members.length(),
                edges.pointer(),
                edges.length(),
                summary.pointer(),
                summary.length(),
            ),
            How::Step => gormulast_zones_step(
                table.pointer(),
                table.length(),
                p.pointer(),
                p.length(),
                a.pointer(),
                a.length(),
                factor.pointer(),
                factor.length(),
                starts.pointer(),
                starts.length(),
                temperatures.pointer(),
                temperatures.length(),
                carried.pointer(),
                carried.length(),
                counts.pointer(),
                counts.length(),
                members.pointer(),
                members.length(),
                edges.pointer(),
                edges.length(),
                summary.pointer(),
                summary.length(),
            ),
        }
    };

    table.open("table", &mut lent.table);
    starts.open("starts", &mut lent.starts);
    temperatures.open("temperatures", &mut lent.temperatures);
    carried.open("carried", &mut lent.carried);
    let fenced = [p, a, factor, work].into_iter();
    for ((matrix, slice), name) in fenced.zip(&mut lent.matrices).zip(MATRICES) {
        matrix.open(name, slice);
    }
    counts.open("counts", &mut zones.counts);
    members.open("members", &mut zones.members);
    edges.open("edges", &mut zones.edges);
    summary.open("summary", &mut zones.summary);
    Outcome {
        answer,
        lent,
        zones,
    }
}

fn told(answer: u64) -> String {
    let (number, corrections, place) = (answer & 255, answer >> 8 & 255, answer >> 16);
    format!("number {number}, corrections {corrections}, place {place}")
}

fn end(what: &str, how: How, lent: &Lent, zones: &Zones, right: &Outcome, ours: &Outcome) -> ! {
    println!("zones, {how:?}: {what}");
    println!("table {:?}", lent.table);
    println!("starts {:?}", lent.starts);
    println!("temperatures {:?}", lent.temperatures);
    println!("carried {:?}", lent.carried);
    println!("{zones:?}");
    println!("it must answer {}", told(right.answer));
    println!("and it answers {}", told(ours.answer));
    println!("it must leave temperatures {:?}", right.lent.temperatures);
    println!("and it leaves              {:?}", ours.lent.temperatures);
    println!("it must leave carried {:?}", right.lent.carried);
    println!("and it leaves         {:?}", ours.lent.carried);
    println!("it must leave summary {:?}", right.zones.summary);
    println!("and it leaves         {:?}", ours.zones.summary);
    exit(1);
}

/// One call on both programs; they agree, or the program ends here. The answer, and what is left.
fn call(trial: &mut Trial, how: How, lent: &Lent, zones: &Zones) -> Outcome {
    let (right, ours) = (by_reference(how, lent, zones), by_archive(how, lent, zones));
    if right != ours {
        end("the two programs disagree", how, lent, zones, &right, &ours);
    }
    trial.zoned(&Seen {
        how,
        before: (lent, zones),
        after: (&ours.lent, &ours.zones),
        answer: ours.answer,
    });
    ours
}

/// A step with zones, held to the other calls: it is the step, or leaves all as it was, and a fresh summary stays a fresh one.
fn step(trial: &mut Trial, lent: &Lent, zones: &Zones) -> Outcome {
    let after = call(trial, How::Step, lent, zones);
    let number = after.answer & 255;
    let mut alone = lent.clone();
    let stepped = trial.call(&mut alone, Call::Step);
    let mut right = Outcome {
        answer: after.answer,
        lent: lent.clone(),
        zones: zones.clone(),
    };
    if number == 0 {
        right.lent = Lent {
            part: right.lent.part,
            ..alone
        };
        right.answer = stepped;
        right.zones.summary = after.zones.summary.clone();
    }
    if right != after {
        end(
            "it is not the step, or a refusal left something else",
            How::Step,
            lent,
            zones,
            &right,
            &after,
        );
    }
    if by_archive(How::Afresh, lent, zones).zones == *zones && number == 0 {
        let afresh = by_archive(How::Afresh, &after.lent, &after.zones);
        if afresh.zones != after.zones {
            end(
                "a fresh summary is stale after the step",
                How::Step,
                lent,
                zones,
                &afresh,
                &after,
            );
        }
    }
    after
}

/// Zones of a deck of n nodes, none of them wrong: of few nodes or many, apart or over each other, some of them twice.
fn right_zones(chance: &mut Chance, n: u32, zones: u32) -> Zones {
    let mut made = Zones::default();
    for _ in 0..zones {
        let count = match chance.within(0, 3) {
            0 => 1,
            1 => chance.within(1, 96),
            _ => chance.within(1, n),
        };
        made.counts.push(count);
        let first = chance.within(1, n);
        let along = chance.one_in(2);
        for k in 0..count {
            let node = match along {
                true => (first - 1 + k) % n + 1,
                false => chance.within(1, n),
            };
            made.members.push(node);
        }
    }
    made.summary = vec![u32::MAX; 3 * zones as usize];
    made
}

/// Rising edges about these temperatures, some of them at one of them, and off the scale.
fn rising(chance: &mut Chance, temperatures: &[i64], many: usize) -> Vec<u32> {
    let mut edges: Vec<u32> = (0..many)
        .map(|_| match chance.within(0, 4) {
            0 => chance.unsigned(),
            1 => chance.within(0, TOP),
            _ => {
                let at = u32::try_from(chance.pick(temperatures).clamp(0, i64::from(TOP)));
                let at = at.expect("on the scale");
                (at + chance.within(0, 2)).saturating_sub(1)
            }
        })
        .collect();
    edges.sort_unstable();
    edges.dedup();
    edges
}

/// A summary of any numbers and one that is long enough, with what lies past it.
fn any_summary(chance: &mut Chance, zones: &mut Zones) {
    let past = chance.within(0, 5) as usize;
    let long = 3 * zones.counts.len() + past;
    zones.summary = (0..long).map(|_| chance.unsigned()).collect();
}

/// A deck that was built, with warm nodes.
fn board(trial: &mut Trial) -> Lent {
    loop {
        let table = deck(&mut trial.chance);
        let n = nodes_of(&table);
        let mut lent = lend(&mut trial.chance, table);
        if trial.call(&mut lent, Call::Build) == 0 {
            if trial.chance.one_in(2) {
                warm(&mut trial.chance, &mut lent.temperatures[..n]);
            }
            lent.carried.fill(0);
            return lent;
        }
    }
}

/// A small deck that builds and settles: nodes of it are held, so some zones stay as they are.
fn small(trial: &mut Trial) -> Lent {
    let mut groups = Groups::one_of_each();
    groups.fixed = vec![[3, 19_660_800]];
    let mut lent = Lent::of(groups.table());
    assert_eq!(trial.call(&mut lent, Call::Build), 0);
    lent
}

fn by_chance(trial: &mut Trial) {
    for _ in trial.times(250) {
        let mut lent = match trial.chance.one_in(8) {
            true => strange(trial),
            false => board(trial),
        };
        let chance = &mut trial.chance;
        let n = nodes_of(&lent.table);
        let many = chance.pick(&[0, 1, 2, 5, 16]);
        let mut zones = right_zones(chance, n as u32, many);
        let near: Vec<i64> = lent.temperatures.iter().take(n).copied().collect();
        let many = chance.within(0, 14) as usize;
        if !near.is_empty() {
            zones.edges = rising(chance, &near, many);
        }
        any_summary(chance, &mut zones);
        if chance.one_in(6) {
            let spoiled = match chance.within(0, 2) {
                0 => &mut zones.counts,
                1 => &mut zones.members,
                _ => &mut zones.edges,
            };
            if !spoiled.is_empty() {
                let at = chance.index(spoiled.len());
                spoiled[at] = chance.unsigned();
            }
        }
        if chance.one_in(6) {
            let least = 3 * zones.counts.len();
            shorten(chance, &mut zones.summary, least.max(1));
        }
        // Stale first, then fresh, over some steps.
        step(trial, &lent, &zones);
        let afresh = call(trial, How::Afresh, &lent, &zones);
        zones = afresh.zones;
        for _ in 0..trial.chance.within(1, 4) {
            let after = step(trial, &lent, &zones);
            (lent, zones) = (after.lent, after.zones);
        }
    }
}

fn both(trial: &mut Trial, lent: &Lent, zones: &Zones) {
    call(trial, How::Afresh, lent, zones);
    step(trial, lent, zones);
}

/// 0 to 17 zones, and 96 and 97 nodes in each of them.
fn counts(trial: &mut Trial) {
    let lent = small(trial);
    for many in 0..=17 {
        let mut zones = right_zones(&mut trial.chance, 3, many);
        any_summary(&mut trial.chance, &mut zones);
        both(trial, &lent, &zones);
        for zone in 0..many as usize {
            for count in [96, 97] {
                let mut zones = zones.clone();
                zones.counts[zone] = count;
                zones.members = vec![2; 17 * 97];
                both(trial, &lent, &zones);
            }
        }
    }
    for many in 0..=15 {
        let mut zones = right_zones(&mut trial.chance, 3, 2);
        zones.edges = (0..many).map(|edge| 19_660_800 + edge).collect();
        both(trial, &lent, &zones);
    }
}

/// Node 0, node n and node n + 1 at each place, and each zone empty; two faults at once.
fn wrong(trial: &mut Trial) {
    for lent in [small(trial), board(trial)] {
        let n = nodes_of(&lent.table) as u32;
        for many in [1, 2, 16] {
            let zones = right_zones(&mut trial.chance, n, many);
            for node in [0, n, n + 1, u32::MAX] {
                for at in 0..zones.members.len() {
                    let mut zones = zones.clone();
                    zones.members[at] = node;
                    both(trial, &lent, &zones);
                }
            }
            for zone in 0..many as usize {
                let mut zones = zones.clone();
                zones.counts[zone] = 0;
                both(trial, &lent, &zones);
                zones.members[0] = 0;
                zones.edges = vec![9, 9];
                both(trial, &lent, &zones);
            }
        }
    }
}

/// One edge equal to the one before it or below it, at each place.
fn edges(trial: &mut Trial) {
    let lent = small(trial);
    for many in 1..=14_usize {
        let mut zones = right_zones(&mut trial.chance, 3, 2);
        zones.edges = (0..many as u32).map(|edge| 100 * edge + 1).collect();
        both(trial, &lent, &zones);
        for at in 1..many {
            for less in [0, 1, 100] {
                let mut zones = zones.clone();
                zones.edges[at] = zones.edges[at - 1].saturating_sub(less);
                both(trial, &lent, &zones);
            }
        }
    }
    // Just at each temperature, and a tick beside it.
    for ticks in [0, 1, 19_660_800, TOP - 1, TOP] {
        for edge in [ticks.saturating_sub(1), ticks, ticks + 1, u32::MAX] {
            let mut lent = lent.clone();
            lent.temperatures.fill(i64::from(ticks));
            let mut zones = right_zones(&mut trial.chance, 3, 3);
            zones.edges = vec![edge];
            both(trial, &lent, &zones);
        }
    }
}

/// Each slice from nothing to more than enough.
fn lengths(trial: &mut Trial) {
    let lent = small(trial);
    for many in [0, 1, 3, 16] {
        let zones = right_zones(&mut trial.chance, 3, many);
        for long in 0..=zones.members.len() + 2 {
            let mut zones = zones.clone();
            zones.members.resize(long, 1);
            both(trial, &lent, &zones);
        }
        for long in 0..=3 * many as usize + 4 {
            let mut zones = zones.clone();
            zones.summary.resize(long, 77);
            both(trial, &lent, &zones);
        }
    }
    // Counts whose sum passes 32 bits.
    let zones = Zones {
        counts: vec![u32::MAX; 17],
        summary: vec![5; 60],
        ..Zones::default()
    };
    both(trial, &lent, &zones);
}

/// What refuses a step, beside zones that are right, wrong, too many or too long for what is lent.
fn refused(trial: &mut Trial) {
    let whole = small(trial);
    let mut every = vec![whole.clone()];
    for which in 0..8 {
        let mut lent = whole.clone();
        match which {
            0..=2 => drop(lent.matrices[which].pop()),
            3 => drop(lent.starts.pop()),
            4 => drop(lent.temperatures.pop()),
            5 => drop(lent.carried.pop()),
            6 => lent.starts[1] += 1,
            _ => drop(lent.table.pop()),
        }
        every.push(lent);
    }
    for numbers in 0..5 {
        let mut lent = whole.clone();
        match numbers {
            0 => lent.matrices[0][0] = 1 << 34,
            1 => lent.matrices[2][0] = 15,
            2 => lent.carried[1] = (1 << 33) + 1,
            3 => lent.temperatures[2] = i64::from(TOP) + 1,
            _ => lent.matrices[2][0] = 1 << 38,
        }
        every.push(lent);
    }
    let right = right_zones(&mut trial.chance, 3, 3);
    let mut kinds = vec![right.clone()];
    kinds.push(right_zones(&mut trial.chance, 3, 17));
    let mut other = right.clone();
    other.members[0] = 4;
    kinds.push(other);
    let mut other = right.clone();
    other.edges = vec![7, 7];
    kinds.push(other);
    let mut other = right.clone();
    other.summary.pop();
    kinds.push(other);
    let mut other = right;
    other.members.pop();
    kinds.push(other);
    for lent in &every {
        for zones in &kinds {
            both(trial, lent, zones);
        }
    }
}
