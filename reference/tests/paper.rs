//! The papers' checked numbers, P1 to P12, those of the edge film, and the program.

mod common;

use common::*;
use reference::{Answer, Stepped};
use std::io::Write;
use std::process::{Command, Stdio};

fn base() -> Lent {
    Lent::built(Groups::base().table())
}

#[test]
fn p1_conductance() {
    let lent = base();
    let conductance: Vec<i64> = (0..6).map(|i| lent.a[i] - lent.p[i]).collect();
    assert_eq!(conductance, [1_000, -500, 500, -500, 0, 500]);
}

#[test]
fn p2_capacity() {
    assert_eq!(base().p[..6], [5_000, 2_500, 5_000, 2_500, 2_500, 5_000]);
}

#[test]
fn p3_film() {
    for (film, v) in [(479, 0), (480, 1)] {
        let mut groups = Groups::base();
        groups.films.push([1, film, 0]);
        let lent = Lent::built(groups.table());
        let share: Vec<i64> = (0..6).map(|i| lent.a[i] - base().a[i]).collect();
        assert_eq!(share, [2 * v, v, 2 * v, v, v, 2 * v]);
    }
}

#[test]
fn p4_turning_sense() {
    let mut groups = Groups::base();
    groups.elements[0] = [1, 3, 2, 1, 1_000];
    assert_eq!(Lent::built(groups.table()).a, base().a);
}

#[test]
fn p5_factor() {
    assert_eq!(
        base().factor[..6],
        [6_000, 349_525, 4_833, 349_525, 397_691, 4_138]
    );
}

#[test]
fn p6_heat() {
    // The residuals and the row bounds are in the unit test of the step.
    let mut groups = Groups::base();
    groups.heats.push([1, 3]);
    let mut lent = Lent::built(groups.table());
    assert_eq!(lent.step(), Stepped::Settled(1));
    assert_eq!(lent.temperatures[..3], [19_660_807; 3]);
}

#[test]
fn p7_no_heat() {
    let mut lent = base();
    assert_eq!(lent.step(), Stepped::Settled(1));
    assert_eq!(lent.temperatures[..3], [19_660_800; 3]);
}

#[test]
fn p8_pivot() {
    let mut groups = Groups::base();
    groups.materials[0][2] = 1;
    groups.d[0] = 60_000;
    assert_eq!(Lent::new(groups.table()).build(), refused(7, 3));
}

#[test]
fn p9_thin() {
    let mut groups = Groups::base();
    groups.nodes[2] = [101, 1];
    groups.materials[0] = [10_000, 10_000, 1];
    assert_eq!(Lent::new(groups.table()).build(), refused(14, 1));
}

/// What P9 showed before a thin element was named.
#[test]
fn p9_bound() {
    let groups = Groups::leaning();
    assert_eq!(Lent::new(groups.table()).build(), refused(8, 2));
}

#[test]
fn p10_stiff() {
    let mut groups = Groups::base();
    groups.d[0] = 1;
    groups.elements[0][4] = 4_000;
    groups.materials[0][2] = 960;
    assert_eq!(Lent::built(groups.table()).p[..2], [8_000_000, 4_000_000]);
    groups.materials[0][2] = 961;
    assert_eq!(Lent::new(groups.table()).build(), refused(6, 1));
}

#[test]
fn p11_flat() {
    let mut groups = Groups::base();
    groups.nodes = vec![[0, 0], [50, 50], [100, 100]];
    assert_eq!(Lent::new(groups.table()).build(), refused(5, 1));
}

#[test]
fn p12_replacement() {
    let mut lent = base();
    assert_eq!(lent.replace(6, card(E, &[1, 2, 3, 1, 2_000])), Answer::Done);
    assert_eq!(lent.a[..6], [12_000, 4_000, 11_000, 4_000, 5_000, 11_000]);
    assert_eq!(lent.table[5 * 6 + 5], 2_000);
}

/// The base with one G card, and how A then differs from the base's.
fn edged(fields: [u32; 5]) -> (Lent, Vec<i64>) {
    let mut groups = Groups::base();
    groups.edges.push(fields);
    let lent = Lent::built(groups.table());
    let more = (0..6).map(|i| lent.a[i] - base().a[i]).collect();
    (lent, more)
}

#[test]
fn an_edge_of_100() {
    for (film, g) in [(599, 0), (600, 1), (1_799, 1), (1_800, 2)] {
        let (lent, more) = edged([1, 2, film, 0, 1_000]);
        assert_eq!(more, [2 * g, g, 2 * g, 0, 0, 0]);
        assert_eq!(lent.p, base().p);
    }
}

#[test]
fn an_edge_aslant() {
    let (lent, more) = edged([2, 3, 100_000, 0, 4_000]);
    assert_eq!(more, [0, 0, 942, 0, 471, 942]);
    assert_eq!(lent.p, base().p);
}

/// Ends that are as warm as the frame keep their temperature: 3g·ambient is what A's row takes.
#[test]
fn a_frame_as_warm_as_the_plate() {
    let (mut lent, _) = edged([2, 3, 100_000, 19_660_800, 4_000]);
    assert_eq!(lent.step(), Stepped::Settled(1));
    assert_eq!(lent.temperatures[..3], [19_660_800; 3]);
}

/// Two nodes at one point are no refusal: g is 0, and the card does nothing.
#[test]
fn an_edge_of_no_length() {
    let mut groups = Groups::base();
    groups.nodes.push([0, 100]);
    groups.fixed.push([4, 19_660_800]);
    let without = Lent::built(groups.table());
    groups.edges.push([3, 4, 100_000, 0, 4_000]);
    let mut lent = Lent::built(groups.table());
    assert_eq!(
        [&lent.p, &lent.a, &lent.factor],
        [&without.p, &without.a, &without.factor]
    );
    assert_eq!(lent.step(), Stepped::Settled(1));
    assert_eq!(lent.temperatures[..4], [19_660_800; 4]);
}

#[test]
fn an_edge_replaced() {
    let (mut lent, _) = edged([1, 2, 600, 0, 1_000]);
    let new = card(G, &[1, 2, 900, 5, 2_000]);
    assert_eq!(lent.replace(7, new), Answer::Done);
    let (fresh, more) = edged([1, 2, 900, 5, 2_000]);
    assert_eq!(more, [4, 2, 4, 0, 0, 0]);
    assert_eq!(lent, fresh);
}

/// What the stepping program prints.
fn program(input: &[u8]) -> String {
    let mut child = Command::new(env!("CARGO_BIN_EXE_reference"))
        .stdin(Stdio::piped())
        .stdout(Stdio::piped())
        .spawn()
        .unwrap();
    // A program that has read enough may close its end first.
    let _ = child.stdin.take().unwrap().write_all(input);
    String::from_utf8(child.wait_with_output().unwrap().stdout).unwrap()
}

const P6: [&str; 8] = [
    "D    100019660800       1",
    "N       0       0",
    "N     100       0",
    "N       0     100",
    "M    1000    1000    2400",
    "E       1       2       3       1    1000",
    "H       1       3",
    "Z     294       3       1       1       1",
];

fn text(lines: &[&str]) -> String {
    lines.iter().map(|line| format!("{line:<41}\n")).collect()
}

#[test]
fn the_program_of_p6() {
    let deck = text(&P6);
    let output = "T 1 19660807\nT 2 19660807\nT 3 19660807\nZ 1 3\n";
    assert_eq!(program(deck.as_bytes()), output);
    assert_eq!(
        program(format!("Notes before it\n{deck}").as_bytes()),
        output
    );

    let mut groups = Groups::base();
    groups.heats.push([1, 3]);
    assert_eq!(bytes_of(&groups.table()), deck.as_bytes());
}

#[test]
fn the_program_refuses() {
    let deck = text(&P6);
    assert_eq!(program(b""), "R 1 0\n");
    assert_eq!(program(&[b'\n'; 65_536]), "R 2 0\n");
    assert_eq!(program(&[b'\n'; 65_537]), "R 1 0\n");
    let fill =
        |length: usize| [vec![b' '; length - deck.len()], deck.clone().into_bytes()].concat();
    assert_eq!(program(&fill(65_536)).lines().last(), Some("Z 1 3"));
    assert_eq!(program(&fill(65_537)), "R 1 0\n");
    assert_eq!(program(deck.replacen("H ", "J ", 1).as_bytes()), "R 3 7\n");

    // Heat off the top of the scale in the first or a later step: only the refusal is printed.
    for steps in [1, 9] {
        let mut groups = Groups::base();
        groups.d = [1_000, TOP - 20, 9];
        groups.heats.push([1, if steps == 1 { 30 } else { 3 }]);
        assert_eq!(program(&bytes_of(&groups.table())), "R 11 1\n");
    }
}
