//! A replacement leaves what a fresh build of the new deck makes.

mod common;

use common::*;
use reference::Answer;

/// A card that may take the place of that one.
fn another(chance: &mut Chance, table: &[u32], index: usize) -> [u32; 6] {
    let materials = table[table.len() - 3];
    let mut new = [0; 6];
    new.copy_from_slice(&table[6 * index..6 * index + 6]);
    match new[0] {
        E => {
            new[4] = chance.within(1, materials);
            new[5] = chance.within(1, 4_000);
        }
        V => new[5] = chance.within(1, materials),
        H => new[2] = chance.within(1, 5_000_000),
        F => {
            new[2] = chance.within(1, 100_000);
            new[3] = chance.within(0, TOP);
        }
        G => {
            new[3] = chance.within(1, 100_000);
            new[4] = chance.within(0, TOP);
            new[5] = chance.within(1, 4_000);
        }
        _ => new[2] = chance.within(0, TOP),
    }
    new
}

fn many(
    seed: u64,
    decks: usize,
    replacements: usize,
    deck: impl Fn(&mut Chance) -> Groups,
) -> usize {
    let mut chance = Chance::seeded(seed);
    let (mut done, mut undone, mut edges, mut solids) = (0, 0, 0, 0);
    for _ in 0..decks {
        let groups = deck(&mut chance);
        let mut lent = Lent::built(groups.table());
        let cards = lent.table.len() / 6;
        let first = 1 + groups.nodes.len() + groups.materials.len();
        for _ in 0..replacements {
            let index = first + chance.index(cards - 1 - first);
            let new = another(&mut chance, &lent.table, index);
            let before = lent.clone();
            let answer = lent.replace(index as u32 + 1, new);

            let mut table = before.table.clone();
            table[6 * index..6 * index + 6].copy_from_slice(&new);
            let mut fresh = Lent::new(table);
            fresh.temperatures.clone_from(&lent.temperatures);
            let built = fresh.build();
            if answer == Answer::Done {
                assert_eq!(built, Answer::Done);
                assert_eq!(lent, fresh);
                done += 1;
                edges += usize::from(new[0] == G);
                solids += usize::from(new[0] == V);
            } else {
                // The rest of the deck builds, so the two meet the same refusal.
                assert_eq!(answer, built);
                assert_eq!(lent, before);
                undone += 1;
            }
        }
    }
    assert!(done >= decks * replacements / 2, "{done} {undone}");
    assert!(edges > 0);
    solids
}

fn sheets(seed: u64, decks: usize, replacements: usize, widest: u32, tallest: u32) {
    many(seed, decks, replacements, |chance| {
        let (columns, rows) = (chance.within(2, widest), chance.within(2, tallest));
        Groups::sheet(chance, columns, rows)
    });
}

#[test]
fn small_sheets() {
    sheets(3, 60, 50, 4, 4);
}

#[test]
fn middle_sheets() {
    sheets(4, 10, 40, 7, 6);
}

#[test]
fn large_sheets() {
    sheets(5, 3, 20, 12, 8);
}

#[test]
fn blocks() {
    let small = many(15, 60, 50, |chance| {
        let [columns, rows, floors] = [0; 3].map(|_| chance.within(2, 3));
        Groups::block(chance, columns, rows, floors)
    });
    let large = many(16, 4, 40, |chance| Groups::block(chance, 16, 3, 2));
    assert!(small > 300 && large > 30, "{small} {large}");
}
