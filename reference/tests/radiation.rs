//! Request [10]: the flux by figures worked out by hand, and a board over a warm plate.

mod common;

use common::*;
use reference::{loss, Stepped};

const K300: u64 = 3 * 300 * 65_536;

/// 5.66961e-8 · 1.25e-5 m² · 300⁴ K⁴ is 5,740.480125 µW, a third of it 1,913.493375, times 65,536 it is 125,402,701.824.
#[test]
fn by_hand() {
    assert_eq!(loss(1_000, 10_000, K300, 0), 125_402_702);
    assert_eq!(loss(1_000, 10_000, 0, 300 * 65_536), -125_402_702);
    assert_eq!(loss(0, 10_000, K300, 0), 0);
    assert_eq!(loss(1_000, 10_000, K300, 300 * 65_536), 0);
    assert_eq!(loss(900, 10_000, K300, 290 * 65_536), 14_312_489);
}

/// 94,493.5 either way goes away from zero.
#[test]
fn halves() {
    assert_eq!(loss(1_000, 800, 18_432_000, 2_048_000), 94_494);
    assert_eq!(loss(1_000, 800, 6_144_000, 6_144_000), -94_494);
}

/// The largest, and a sum that is no multiple of three.
#[test]
fn ends() {
    assert_eq!(loss(1_000, 1 << 24, 3 << 25, 0), 1_784_931_748_996);
    assert_eq!(loss(1_000, 1 << 24, 0, 1 << 25), -1_784_931_748_996);
    assert_eq!(loss(850, 10_000, 58_982_401, 20_971_520), -31_395_504);
    assert_eq!(loss(1_000, 1, K300, 0), 12_540);
}

/// It grows with the sum and falls with the source.
#[test]
fn order() {
    let mut last = i64::MIN;
    for sum in (0..=3 << 25).step_by(1 << 20) {
        let now = loss(777, 123_456, sum, 1 << 24);
        assert!(last <= now);
        last = now;
    }
    let mut last = i64::MAX;
    for source in (0..=1 << 25).step_by(1 << 19) {
        let now = loss(777, 123_456, 50_000_001, source);
        assert!(now <= last);
        last = now;
    }
}

/// D, three N, M, E, R, Z: P1's board over a plate of 290 K. The flux is by the temperatures before each step.
#[test]
fn two_steps() {
    let mut groups = Groups::base();
    groups.emissivities = vec![900];
    groups.sources = vec![[1, 290 * 65_536]];
    let mut lent = Lent::built(groups.table());
    assert_eq!(lent.step(), Stepped::Settled(1));
    assert_eq!(lent.temperatures[..3], [19_659_369; 3]);
    assert_eq!(lent.carried[..3], [-2_489; 3]);
    assert_eq!(lent.step(), Stepped::Settled(1));
    assert_eq!(lent.temperatures[..3], [19_657_941; 3]);
    assert_eq!(lent.carried[..3], [-2_123; 3]);
}

/// An emissivity of 1 to 1,000 or blank, in bytes and in a table; R after G, one a triangle, on the scale.
#[test]
fn cards() {
    let mut groups = Groups::one_of_each();
    groups.sources.push([1, 0]);
    for emissivity in [0, 1, 1_000] {
        groups.emissivities = vec![emissivity];
        accepts(&groups.table());
    }
    // D, three N, M, E, H, F, G, R, T, Z.
    let table = groups.table();
    table_refused(&with(&table, 4, 5, 1_001), 4, 5);
    for (columns, number) in [
        (b"       0", 4),
        (b"    1001", 4),
        (b"      01", 3),
        (b"1       ", 3),
    ] {
        let mut bytes = bytes_of(&table);
        bytes[42 * 4 + 33..42 * 4 + 41].copy_from_slice(columns);
        bytes_refused(&bytes, number, 5);
    }
    accepts(&with(&table, 9, 2, TOP));
    table_refused(&with(&table, 9, 2, TOP + 1), 4, 10);
    table_refused(&with(&table, 9, 1, 2), 4, 10);
    table_refused(&with(&table, 9, 3, 1), 3, 10);
    table_refused(&swapped(&table, 8, 9), 3, 10);
    table_refused(&swapped(&table, 9, 10), 3, 11);
    groups.sources.push([1, 0]);
    table_refused(&groups.table(), 4, 11);
    let mut solid = Groups::one_of_each_solid();
    solid.sources = vec![[1, 5]];
    accepts(&solid.table());
    // D, four N, M, E, V, H, F, G, R.
    solid.sources = vec![[2, 5]];
    table_refused(&solid.table(), 4, 12);
}

/// It can't be replaced, and no change names it.
#[test]
fn stays() {
    let mut groups = Groups::one_of_each();
    groups.sources.push([1, 7]);
    let mut lent = Lent::built(groups.table());
    assert_eq!(lent.replace(10, card(R, &[1, 7])), refused(13, 10));
    assert_eq!(lent.replace(10, [R, 1, 7, 1, 0, 0]), refused(3, 10));
    groups.changes.push([1, R, 1, 7, 0]);
    table_refused(&groups.table(), 4, 12);
}
