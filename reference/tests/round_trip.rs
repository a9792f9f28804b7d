//! Read and write undo each other.

mod common;

use common::*;
use reference::{read, write, Answer};

fn any_deck(chance: &mut Chance) -> Vec<u32> {
    let groups = match chance.within(0, 5) {
        0 | 1 => {
            let (columns, rows) = (chance.within(2, 12), chance.within(2, 8));
            Groups::sheet(chance, columns, rows)
        }
        2 => {
            let [columns, rows, floors] = [0; 3].map(|_| chance.within(2, 4));
            Groups::block(chance, columns, rows, floors)
        }
        _ => Groups::wild(chance),
    };
    groups.varied(chance).table()
}

#[test]
fn a_written_table_is_read_again() {
    let mut chance = Chance::seeded(1);
    for _ in 0..1_000 {
        let table = any_deck(&mut chance);
        let mut bytes = vec![7; 7 * table.len() + 5];
        assert_eq!(write(&table, &mut bytes), Answer::Done);
        assert_eq!(bytes[7 * table.len()..], [7; 5]);
        bytes.truncate(7 * table.len());

        // Notes may be any bytes, a trailer too.
        let mut noted: Vec<u8> = (0..chance.within(0, 200))
            .map(|_| chance.bits() as u8)
            .collect();
        if chance.one_in(2) {
            noted.extend(&bytes[bytes.len() - 42..]);
        }
        let notes = noted.len();
        noted.extend(&bytes);

        let mut again = vec![9; table.len() + 4];
        assert_eq!(read(&noted, &mut again), (Answer::Done, notes, noted.len()));
        assert_eq!(again[..table.len()], table);
        assert_eq!(again[table.len()..], [9; 4]);
    }
}

/// A deck has one spelling: whatever bytes are read, the writer gives just those again.
#[test]
fn read_bytes_are_written_again() {
    let mut chance = Chance::seeded(2);
    // Of flat decks and of solid ones.
    let (mut accepted, mut refusals) = ([0; 2], [[0; NUMBERS]; 2]);
    for turn in 0..40 {
        let solid = turn % 2;
        let groups = Groups::wild_of(&mut chance, solid == 1);
        let bytes = bytes_of(&groups.varied(&mut chance).table());
        for _ in 0..500 {
            let mut bytes = bytes.clone();
            for _ in 0..chance.within(1, 2) {
                let at = chance.index(bytes.len());
                bytes[at] = chance.pick(b"0123456789 \nDNMEVHFGTCZ\0\xff");
            }
            let mut table = vec![9; 6_396];
            let (answer, start, end) = read(&bytes, &mut table);
            match answer {
                Answer::Done => {
                    let length = (end - start) / 7;
                    assert_eq!(bytes_of(&table[..length]), bytes[start..end]);
                    accepted[solid] += 1;
                }
                Answer::Refused(refusal) => {
                    assert_eq!((start, end), (0, 0));
                    assert_eq!(table, vec![9; 6_396]);
                    refusals[solid][refusal.number as usize] += 1;
                }
            }
        }
    }
    assert!(accepted.iter().all(|&times| times > 300));
    assert!(refusals
        .iter()
        .all(|met| met[2] > 100 && met[3] > 1_000 && met[4] > 100));
}
