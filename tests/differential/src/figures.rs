//! The checked numbers, P1 to P12, those of the edge film, of the tetrahedron, of what a step carries, of thin triangles and of radiation, out
//! of an archive alone: that of the kept form and that of the packed one. And those of starts, of changes and of zones.

use crate::archive;
use crate::case::{Call, Lent};
use crate::decks::{kept_of, triangle, turned, Groups, E, F, G, H, TOP, V};
use crate::zones::{by_archive, How, Zones};

/// A call of an archive.
type Archive = fn(Call, &mut Lent) -> u64;

const START: i64 = 19_660_800;

/// What a number past the end must stay.
const PAST: i64 = 77;

/// A deck with slices one longer than it asks.
fn lend(groups: &Groups) -> Lent {
    let nodes = groups.nodes.len();
    let numbers = |number: i64| {
        let mut numbers = vec![number; nodes];
        numbers.push(PAST);
        numbers
    };
    Lent {
        table: groups.table(),
        matrices: [0; 4].map(|_| vec![PAST; triangle(nodes) + 1]),
        starts: vec![PAST as u32; nodes + 1],
        temperatures: numbers(START),
        carried: numbers(0),
        ..Lent::default()
    }
}

/// The base of the paper with something else in it, built: the packed answer, P, A and factor.
fn built(ask: Archive, change: fn(&mut Groups)) -> (u64, [Vec<i64>; 3]) {
    let mut groups = Groups::base();
    change(&mut groups);
    let mut lent = lend(&groups);
    let answer = ask(Call::Build, &mut lent);
    let [p, a, factor, work] = lent.matrices;
    let worked = answer == 0 || [7, 8].contains(&(answer & 255));
    assert_eq!(work[..6], [if worked { 0 } else { PAST }; 6]);
    assert_eq!([p[6], a[6], factor[6], work[6]], [PAST; 4]);
    (answer, [p, a, factor].map(|matrix| matrix[..6].to_vec()))
}

/// A refusal, packed, with P, A and the factor as they were.
fn refused(number: u64, place: u64) -> (u64, [Vec<i64>; 3]) {
    (number + 65_536 * place, [0; 3].map(|_| vec![PAST; 6]))
}

/// The base built and stepped once: the packed answer, the temperatures and what is carried.
fn stepped(ask: Archive, change: fn(&mut Groups)) -> (u64, Vec<i64>, Vec<i64>) {
    let mut groups = Groups::base();
    change(&mut groups);
    let mut lent = lend(&groups);
    ask(Call::Build, &mut lent);
    let answer = ask(Call::Step, &mut lent);
    (answer, lent.temperatures, lent.carried)
}

/// The same number at each of three nodes, and the one past them.
fn alike(number: i64) -> Vec<i64> {
    vec![number, number, number, PAST]
}

fn film(groups: &mut Groups, film: u32) {
    groups.films.push([1, film, 0]);
}

fn thick(groups: &mut Groups, capacity: u32) {
    (groups.d[0], groups.elements[0][4], groups.materials[0][2]) = (1, 4_000, capacity);
}

fn matrices(ask: Archive) {
    let (answer, [p, a, factor]) = built(ask, |_| {});
    assert_eq!(answer, 0);
    let conductance: Vec<i64> = a.iter().zip(&p).map(|(a, p)| a - p).collect();
    assert_eq!(conductance, [1_000, -500, 500, -500, 0, 500], "P1");
    assert_eq!(p, [5_000, 2_500, 5_000, 2_500, 2_500, 5_000], "P2");
    assert_eq!(built(ask, |groups| film(groups, 479)).1[1], a, "P3");
    let filmed = built(ask, |groups| film(groups, 480)).1[1].clone();
    let more: Vec<i64> = filmed.iter().zip(&a).map(|(now, a)| now - a).collect();
    assert_eq!(more, [2, 1, 2, 1, 1, 2], "P3");
    assert_eq!(
        built(ask, |groups| groups.elements[0] = [1, 3, 2, 1, 1_000]).1[1],
        a,
        "P4"
    );
    assert_eq!(
        factor,
        [6_000, 349_525, 4_833, 349_525, 397_691, 4_138],
        "P5"
    );
}

fn steps(ask: Archive) {
    assert_eq!(
        stepped(ask, |groups| groups.heats.push([1, 3])),
        (256, alike(START + 7), alike(-4_464)),
        "P6"
    );
    assert_eq!(stepped(ask, |_| {}), (256, alike(START), alike(0)), "P7");
}

/// P6 goes on: 65,536 at each node and step, 10,000 to the tick.
fn carried(ask: Archive) {
    let mut groups = Groups::base();
    groups.heats.push([1, 3]);
    let mut lent = lend(&groups);
    ask(Call::Build, &mut lent);
    for (ticks, residual) in [(7, -4_464), (13, 1_072), (20, -3_392), (26, 2_144)] {
        assert_eq!(ask(Call::Step, &mut lent), 256, "P6 carried");
        assert_eq!(lent.temperatures, alike(START + ticks), "P6 carried");
        assert_eq!(lent.carried, alike(residual), "P6 carried");
    }
    // 2^33 passes by either sign, one more doesn't, and nothing is then written.
    let most = 1 << 33;
    for residual in [most, -most] {
        let mut large = lent.clone();
        large.carried[1] = residual;
        let answer = ask(Call::Step, &mut large);
        assert_eq!(answer & 255, 0, "carried {residual}");
    }
    for residual in [most + 1, -most - 1, i64::MIN, i64::MAX] {
        let mut wrong = lent.clone();
        wrong.carried[1] = residual;
        let before = wrong.clone();
        let answer = ask(Call::Step, &mut wrong);
        assert!(answer == 10 && wrong == before, "carried {residual}");
    }
    let mut short = lent.clone();
    short.carried.truncate(2);
    assert_eq!(ask(Call::Step, &mut short), 9, "carried short");
}

fn refusals(ask: Archive) {
    let slow = |groups: &mut Groups| (groups.materials[0][2], groups.d[0]) = (1, 60_000);
    assert_eq!(built(ask, slow), refused(7, 3), "P8");
    let thin = |groups: &mut Groups| {
        groups.nodes[2] = [101, 1];
        groups.materials[0] = [10_000, 10_000, 1];
    };
    assert_eq!(built(ask, thin), refused(14, 1), "P9");
    let leaning = |groups: &mut Groups| *groups = Groups::leaning();
    assert_eq!(built(ask, leaning), refused(8, 2), "P9's point, not thin");
    let (answer, [p, ..]) = built(ask, |groups| thick(groups, 960));
    assert_eq!((answer, &p[..2]), (0, &[8_000_000, 4_000_000][..]), "P10");
    assert_eq!(
        built(ask, |groups| thick(groups, 961)),
        refused(6, 1),
        "P10"
    );
    assert_eq!(
        built(ask, |groups| groups.nodes =
            vec![[0, 0], [50, 50], [100, 100]]),
        refused(5, 1),
        "P11"
    );
}

fn replacement(ask: Archive) {
    let mut lent = lend(&Groups::base());
    ask(Call::Build, &mut lent);
    let new = [E, 1, 2, 3, 1, 2_000];
    assert_eq!(ask(Call::Replace { card: 6, new }, &mut lent), 0, "P12");
    assert_eq!(lent.table[30..36], new, "P12");
    assert_eq!(
        lent.matrices[1],
        [12_000, 4_000, 11_000, 4_000, 5_000, 11_000, PAST],
        "P12"
    );
}

/// What one G card adds to P and A, by each of their places.
fn edge_adds(ask: Archive, fields: [u32; 5]) -> [Vec<i64>; 2] {
    let build = |groups: &Groups| {
        let mut lent = lend(groups);
        assert_eq!(ask(Call::Build, &mut lent), 0, "G");
        let [p, a, ..] = lent.matrices;
        [p, a]
    };
    let mut groups = Groups::base();
    let without = build(&groups);
    groups.edges.push(fields);
    let with = build(&groups);
    [0, 1].map(|which| {
        let both = with[which][..6].iter().zip(&without[which]);
        both.map(|(now, before)| now - before).collect()
    })
}

fn edges(ask: Archive) {
    for (film, g) in [(599, 0), (600, 1), (1_799, 1), (1_800, 2)] {
        let [p, a] = edge_adds(ask, [1, 2, film, 0, 1_000]);
        assert_eq!(a, [2 * g, g, 2 * g, 0, 0, 0], "G of film {film}");
        assert_eq!(p, [0; 6], "G of film {film}");
    }
    let [p, a] = edge_adds(ask, [2, 3, 100_000, 0, 4_000]);
    assert_eq!(a, [0, 0, 942, 0, 471, 942], "G aslant");
    assert_eq!(p, [0; 6], "G aslant");
    // As warm as the frame, the plate stays as it is: each end's load is 3g·ambient.
    let still = stepped(ask, |groups| {
        groups.edges.push([2, 3, 100_000, START as u32, 4_000])
    });
    assert_eq!(still, (256, alike(START), alike(0)), "G's load");
    // A replacement of it leaves what the new card would have given.
    let mut groups = Groups::base();
    groups.edges.push([2, 3, 1, 0, 1]);
    let mut lent = lend(&groups);
    ask(Call::Build, &mut lent);
    let new = [G, 2, 3, 100_000, 0, 4_000];
    let answer = ask(Call::Replace { card: 7, new }, &mut lent);
    assert_eq!((answer, &lent.table[36..42]), (0, &new[..]), "G replaced");
    let base = [6_000, 2_000, 5_500, 2_000, 2_500, 5_500];
    let more: Vec<i64> = lent.matrices[1]
        .iter()
        .zip(base)
        .map(|(a, b)| a - b)
        .collect();
    assert_eq!(more, [0, 0, 942, 0, 471, 942], "G replaced");
}

/// The corner of a cube of 100 built: the packed answer, P and A without it.
fn cornered(ask: Archive, change: fn(&mut Groups)) -> (u64, [Vec<i64>; 2]) {
    let mut groups = Groups::corner();
    change(&mut groups);
    let mut lent = lend(&groups);
    let answer = ask(Call::Build, &mut lent);
    let [p, a, ..] = lent.matrices;
    let conductance = a[..10].iter().zip(&p).map(|(a, p)| a - p).collect();
    (answer, [p[..10].to_vec(), conductance])
}

fn tetrahedra(ask: Archive) {
    let u = 2_500;
    let stored = vec![2 * u, u, 2 * u, u, u, 2 * u, u, u, u, 2 * u];
    let conducted = vec![2_499, -833, 833, -833, 0, 833, -833, 0, 0, 833];
    let right = (0, [stored.clone(), conducted.clone()]);
    assert_eq!(cornered(ask, |_| {}), right, "V");
    // Turned the other way round, S is the same.
    let turned = cornered(ask, |groups| groups.solids[0] = [2, 1, 3, 4, 1]);
    assert_eq!(turned, right, "V turned");
    // Only kz is large: only the pair along z is.
    let (_, [_, along_z]) = cornered(ask, |groups| groups.upward[0] = 12_000);
    assert_eq!(
        [1, 3, 6].map(|at| along_z[at]),
        [-833, -833, -10_000],
        "V's kz"
    );
    let flat = |groups: &mut Groups| groups.levels[3] = 0;
    assert_eq!(cornered(ask, flat).0, 5 + 65_536, "V of no volume");
    // S is 4,000,000, and u 960·S/960 at a step of 1 ms.
    let thick = |groups: &mut Groups| {
        groups.nodes = vec![[0, 0], [200, 0], [0, 200], [0, 0]];
        (groups.d[0], groups.materials[0][2]) = (1, 960);
    };
    assert_eq!(cornered(ask, thick).1[0][1], 4_000_000, "V's u");
    let thicker = |groups: &mut Groups| {
        groups.nodes = vec![[0, 0], [200, 0], [0, 200], [0, 0]];
        (groups.d[0], groups.materials[0][2]) = (1, 961);
    };
    assert_eq!(cornered(ask, thicker).0, 6 + 65_536, "V's u");
    // 40 µW in quarters, 655,360 each, over 5u = 12,500 at each corner.
    let mut groups = Groups::corner();
    groups.heats.push([1, 40]);
    let mut lent = lend(&groups);
    ask(Call::Build, &mut lent);
    let answer = ask(Call::Step, &mut lent);
    let warmer = START + 52;
    let after = vec![warmer, warmer, warmer, warmer, PAST];
    assert_eq!((answer, lent.temperatures), (256, after), "V's heat");
    assert_eq!(lent.carried[..4], [5_360; 4], "V's residuals");
    // A replacement leaves what the new card would have given.
    let mut groups = Groups::corner();
    groups.materials.insert(0, [9, 9, 9]);
    groups.upward.insert(0, 9);
    let mut lent = lend(&groups);
    ask(Call::Build, &mut lent);
    let new = [V, 1, 2, 3, 4, 2];
    let answer = ask(Call::Replace { card: 8, new }, &mut lent);
    assert_eq!((answer, &lent.table[42..48]), (0, &new[..]), "V replaced");
    let both = stored.iter().zip(&conducted).map(|(p, k)| p + k);
    assert_eq!(lent.matrices[0][..10], stored, "V replaced");
    assert_eq!(
        lent.matrices[1][..10],
        both.collect::<Vec<i64>>(),
        "V replaced"
    );
}

/// Triangles whose 64·S is the square of the longest side, one less, and three more, the nearest that there is: 2,048 and 4,096;
/// 65; 61. In every order of the corners, in a build and over the buffers of another deck by the E and the F put in their places.
fn thin(ask: Archive) {
    for (points, number) in [
        ([[0, 0], [32, 32], [16, 17]], 0),
        ([[0, 0], [64, 0], [32, 1]], 0),
        ([[0, 0], [8, 1], [7, 1]], 14),
        ([[0, 0], [6, 5], [1, 1]], 0),
    ] {
        for points in turned(points) {
            let answer = number + 65_536 * u64::from(number != 0);
            let groups = Groups::narrow(points);
            let mut lent = lend(&groups);
            assert_eq!(ask(Call::Build, &mut lent), answer, "{points:?}");
            let mut lent = lend(&Groups::base());
            ask(Call::Build, &mut lent);
            lent.table = groups.table();
            for (card, new) in [
                (7, [E, 1, 2, 3, 1, 4_000]),
                (9, [F, 1, 480, 19_660_800, 0, 0]),
            ] {
                let call = Call::Replace { card, new };
                assert_eq!(ask(call, &mut lent), answer, "{points:?}");
            }
            // A step judges no element.
            assert_eq!(ask(Call::Step, &mut lent) & 255, 0, "{points:?}");
        }
    }
}

/// 10,000 to the tick again. From 300 K to 0 K each corner loses 125,402,702 and turned round gains as much, without an emissivity nothing; and two
/// steps over 290 K, each by the temperatures before it.
fn sources(ask: Archive) {
    let over = |emissivity: u32, source: u32, start: i64| {
        let mut groups = Groups::base();
        groups.emissivities = vec![emissivity];
        groups.sources = vec![[1, source]];
        let mut lent = lend(&groups);
        assert_eq!(ask(Call::Build, &mut lent), 0, "radiation");
        lent.temperatures[..3].fill(start);
        lent
    };
    for (emissivity, source, start, ticks, residual) in [
        (1_000, 0, START, -12_540, -2_702),
        (1_000, START as u32, 0, 12_540, 2_702),
        (0, 0, START, 0, 0),
        (1_000, START as u32, START, 0, 0),
    ] {
        let mut lent = over(emissivity, source, start);
        assert_eq!(ask(Call::Step, &mut lent) & 255, 0, "radiation");
        assert_eq!(lent.temperatures, alike(start + ticks), "radiation");
        assert_eq!(lent.carried, alike(residual), "radiation");
    }
    let mut lent = over(900, 290 * 65_536, START);
    for (ticks, residual) in [(1_431, -2_489), (2_859, -2_123)] {
        assert_eq!(ask(Call::Step, &mut lent), 256, "over 290 K");
        assert_eq!(lent.temperatures, alike(START - ticks), "over 290 K");
        assert_eq!(lent.carried, alike(residual), "over 290 K");
    }
}

/// By either archive.
pub fn all(ask: Archive) {
    thin(ask);
    tetrahedra(ask);
    matrices(ask);
    steps(ask);
    carried(ask);
    refusals(ask);
    replacement(ask);
    edges(ask);
    sources(ask);
}

/// Nodes 2, 3 and 4 of a triangle, of which 2 is held; 4 and 6 of an edge; 1 and 5 alone, and held. By hand, rows of 1, 1, 2, 3, 1 and
/// 3 numbers.
pub fn rows() {
    let mut groups = Groups::lone(6, [4, 2, 3], false);
    groups.edges.push([4, 6, 60_000, START as u32, 1_000]);
    groups.fixed.insert(1, [2, START as u32]);
    groups.fixed.retain(|card| card[0] != 6);
    let mut lent = lend(&groups);
    assert_eq!(kept_of(&lent.table), 11, "rows");
    lent.matrices
        .iter_mut()
        .for_each(|matrix| matrix.truncate(12));
    let before = lent.clone();
    assert_eq!(archive::call(Call::Build, &mut lent), 0, "rows");
    assert_eq!(lent.starts, [0, 1, 2, 4, 7, 8, PAST as u32], "starts");
    let u = 2_500;
    let p = [0, 2 * u, u, 2 * u, u, u, 2 * u, 0, 0, 0, 0, PAST];
    assert_eq!(lent.matrices[0], p, "P by rows");
    // The edge goes from (0, 0) to (5, 300): L is 300.04, half of it 150.02.
    let conducted: Vec<i64> = lent.matrices[1].iter().zip(p).map(|(a, p)| a - p).collect();
    let (k, g) = (500, 150);
    let a = [0, k, 0, k, -k, -k, 2 * k + 2 * g, 0, g, 0, 2 * g, 0];
    assert_eq!(conducted, a, "A by rows");
    assert_eq!(lent.matrices[3], [0, 0, 0, 0, 0, 0, 0, 0, 0, 0, 0, PAST]);
    // 9 of each slice, and 17 of each start, before the 10 of a pivot of 15.
    for which in 0..4 {
        let mut short = before.clone();
        short.matrices[which].truncate(10);
        assert_eq!(archive::call(Call::Build, &mut short), 9, "rows short");
    }
    let mut short = before.clone();
    short.starts.truncate(5);
    assert_eq!(archive::call(Call::Build, &mut short), 9, "starts short");
    for row in 0..6 {
        let mut stray = lent.clone();
        stray.matrices[2][0] = 15;
        assert_eq!(archive::call(Call::Step, &mut stray), 10, "own starts");
        stray.starts[row] += 1;
        stray.starts[5] += 1;
        let answer = 17 + 65_536 * (row as u64 + 1);
        assert_eq!(archive::call(Call::Step, &mut stray), answer, "starts");
        for card in 8..15 {
            let at = 6 * (card as usize - 1);
            let new = lent.table[at..at + 6].try_into().unwrap();
            let call = Call::Replace { card, new };
            let may = [E, G, b'H'.into(), b'T'.into()].contains(&lent.table[at]);
            let right = if may {
                answer
            } else {
                13 + 65_536 * u64::from(card)
            };
            assert_eq!(
                archive::call(call, &mut stray),
                right,
                "starts, card {card}"
            );
        }
    }
}

/// P6 by hand: a row of A sums to 10,000 and 3 µW are a load of 65,536 a node. Ten times the heat from a step on, P12's thickness
/// from the second; and a film of 0, which is refused as its replacement is, the thickness of the same increment kept.
pub fn changes() {
    let run = |steps: u32, changes: &[[u32; 5]]| {
        let mut groups = Groups::base();
        groups.d[2] = steps;
        groups.heats.push([1, 3]);
        groups.films.push([1, 1, START as u32]);
        groups.changes = changes.to_vec();
        let mut lent = lend(&groups);
        assert_eq!(archive::call(Call::Build, &mut lent), 0, "changes");
        let answer = archive::call(Call::Run, &mut lent);
        (answer, lent)
    };
    for (step, ticks, residual) in [
        (1, 66 + 65 + 66, -3_920),
        (2, 7 + 65 + 66, -3_744),
        (3, 7 + 6 + 66, -3_568),
        (4, 7 + 6 + 7, -3_392),
    ] {
        let (answer, lent) = run(3, &[[step, H, 1, 30, 0]]);
        assert_eq!(answer, 3 * 65_536, "a heat that changes");
        assert_eq!(lent.temperatures[..3], [START + ticks; 3], "step {step}");
        assert_eq!(lent.carried[..3], [residual; 3], "step {step}");
        assert_eq!(lent.table[6 * 6 + 2], if step < 4 { 30 } else { 3 });
        assert_eq!([lent.temperatures[3], lent.carried[3]], [PAST; 2]);
    }
    let thick = [12_000, 4_000, 11_000, 4_000, 5_000, 11_000];
    let (answer, lent) = run(2, &[[2, E, 1, 1, 2_000]]);
    assert_eq!(answer, 2 * 65_536, "a thickness that changes");
    assert_eq!(lent.matrices[1][..6], thick, "P12 in a run");
    assert_eq!(lent.temperatures[..3], [START + 7 + 3; 3], "P12 in a run");
    assert_eq!(lent.carried[..3], [1_072; 3], "P12 in a run");
    let (answer, lent) = run(2, &[[2, E, 1, 1, 2_000], [2, F, 1, 0, 0]]);
    assert_eq!(answer, 4 + 65_536 * 8, "a film of 0");
    assert_eq!(lent.matrices[1][..6], thick, "kept");
    assert_eq!(lent.temperatures[..3], [START + 7; 3], "one step");
    assert_eq!(lent.carried[..3], [-4_464; 3], "one step");
}

/// Zones: P6 with node 1 held, so that nodes 2 and 3 go up by 8 ticks; a zone of each kind, and each refusal in its turn.
pub fn zones() {
    let mut groups = Groups::base();
    groups.heats.push([1, 3]);
    groups.fixed.push([1, START as u32]);
    let mut lent = lend(&groups);
    assert_eq!(archive::call(Call::Build, &mut lent), 0, "zones");
    let edges = vec![START as u32, START as u32 + 8, START as u32 + 9];
    let zones = Zones {
        counts: vec![1, 2, 3],
        members: vec![1, 3, 2, 3, 2, 1],
        edges,
        summary: vec![7; 10],
    };
    let step = |zones: &Zones| by_archive(How::Step, &lent, zones);
    let after = step(&zones);
    assert_eq!(after.answer, 256, "a step with zones");
    assert_eq!(
        after.lent.temperatures[..3],
        [START, START + 8, START + 8],
        "a step with zones"
    );
    assert_eq!(after.zones.summary, [7, 7, 7, 2, 2, 2, 1, 2, 1, 7], "kept");
    let afresh = by_archive(How::Afresh, &after.lent, &zones);
    assert_eq!(afresh.answer, 0, "afresh");
    assert_eq!(
        afresh.zones.summary,
        [1, 1, 1, 2, 2, 2, 1, 2, 1, 7],
        "afresh"
    );
    // Each fault alone, and with those that come after it.
    let mut spoiled = zones.clone();
    let mut answers = vec![];
    let mut tell = |lent: &Lent, zones: &Zones| {
        let after = by_archive(How::Step, lent, zones);
        assert!(
            after.lent == *lent && after.zones == *zones,
            "refused, it wrote"
        );
        answers.push(after.answer);
    };
    spoiled.edges[2] = spoiled.edges[1];
    tell(&lent, &spoiled);
    spoiled.members[5] = 4;
    tell(&lent, &spoiled);
    spoiled.members[1] = 0;
    tell(&lent, &spoiled);
    spoiled.edges = vec![0; 15];
    tell(&lent, &spoiled);
    let mut hot = lent.clone();
    hot.temperatures[1] = i64::from(TOP) + 1;
    tell(&hot, &spoiled);
    hot.starts[2] = 4;
    tell(&hot, &spoiled);
    spoiled.summary.truncate(8);
    tell(&hot, &spoiled);
    hot.table.pop();
    tell(&hot, &spoiled);
    let place = 65_536;
    let right = [
        19 + 3 * place,
        18 + 3 * place,
        18 + 2 * place,
        1,
        11 + 2 * place,
        17 + 3 * place,
        9,
        1,
    ];
    assert_eq!(answers, right, "the order of refusals");
}
