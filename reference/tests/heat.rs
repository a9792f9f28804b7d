//! The heat of an element: all of it, over its corners in the order of its card.

mod common;

use common::*;
use reference::{step, Stepped};

/// What three nodes get, by the words: equal thirds, then one each to the first corners until nothing is left.
fn loads(corners: [u32; 3], microwatts: u32) -> [i64; 3] {
    let heat = 65_536 * i64::from(microwatts);
    let mut loads = [0; 3];
    let mut left = heat;
    for node in corners {
        loads[node as usize - 1] += heat / 3;
        left -= heat / 3;
    }
    let mut order = corners.iter();
    while left > 0 {
        loads[*order.next().unwrap() as usize - 1] += 1;
        left -= 1;
    }
    assert_eq!(loads.iter().sum::<i64>(), heat);
    loads
}

/// How many ticks warmer each node is, weighed against some loads.
fn risen(corners: [u32; 3], microwatts: u32, against: [i64; 3]) -> [i64; 3] {
    let mut it = Scales::new(corners, microwatts, against);
    let (temperatures, carried) = (&mut it.temperatures, &mut it.carried);
    assert_eq!(
        step(&it.table, &it.p, &it.a, &it.factor, temperatures, carried),
        Stepped::Settled(1)
    );
    assert_eq!(it.temperatures[3], 1);
    [0, 1, 2].map(|i| it.temperatures[i] - Scales::WARM)
}

#[test]
fn each_corner_gets_its_own() {
    for corners in Scales::corners() {
        for microwatts in Scales::HEATS {
            let right = loads(corners, microwatts);
            assert_eq!(risen(corners, microwatts, right), [1; 3]);
            assert_eq!(
                risen(corners, microwatts, right.map(|load| load + 1)),
                [0; 3]
            );
        }
    }
}

/// By hand: one and two units more than thirds, in the order of the card and not of the nodes.
#[test]
fn the_units_left_over() {
    assert_eq!(loads([1, 2, 3], 1), [21_846, 21_845, 21_845]);
    assert_eq!(loads([3, 1, 2], 1), [21_845, 21_845, 21_846]);
    assert_eq!(loads([3, 1, 2], 2), [43_691, 43_690, 43_691]);
    assert_eq!(loads([2, 2, 1], 2), [43_690, 87_382, 0]);
    assert_eq!(loads([2, 1, 3], 3), [65_536; 3]);
    assert_eq!(risen([3, 1, 2], 2, [43_691, 43_690, 43_692]), [1, 1, 0]);
}
