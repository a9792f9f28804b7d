//! Changes during the run, by the words of request [9]: C cards of a deck, and an evening stepped by hand.

use super::*;
use reference::{Answer, Card};

/// The letters that a C may name, as they follow each other in a deck.
pub const NAMED: [u32; 4] = [E, H, F, T];
/// The most C cards.
pub const MOST_CHANGES: usize = 64;
/// The greatest number that eight columns hold.
pub const MOST_VALUE: u32 = 99_999_999;

/// How changes follow each other.
pub fn by_turn(change: &[u32; 5]) -> (u32, usize, u32) {
    let turn = NAMED.iter().position(|&letter| letter == change[1]);
    (change[0], turn.unwrap_or(4), change[2])
}

/// The C cards of a table, each with its row.
pub fn changes_of(table: &[u32]) -> Vec<(usize, Card)> {
    let cards = table.chunks_exact(6).enumerate();
    let cards = cards.map(|(row, card)| (row, card.try_into().expect("six numbers")));
    cards
        .filter(|(_, card): &(usize, Card)| card[0] == C)
        .collect()
}

/// The number of the card that a C changes, from 1, and the present card with its new values. None where there is no such card.
pub fn replacement_of(table: &[u32], change: &Card) -> Option<(u32, Card)> {
    let [_, _, letter, key, first, second] = *change;
    let mut triangles = 0;
    for (row, card) in table.chunks_exact(6).enumerate() {
        triangles += u32::from(card[0] == E);
        let number = if letter == E { triangles } else { card[1] };
        if card[0] == letter && number == key && NAMED.contains(&letter) {
            let mut new: Card = card.try_into().expect("six numbers");
            match letter {
                E => new[4..].copy_from_slice(&[first, second]),
                F => new[2..4].copy_from_slice(&[first, second]),
                _ => new[2] = first,
            }
            return Some((row as u32 + 1, new));
        }
    }
    None
}

impl Groups {
    /// The cards that a C may change, by letter and key.
    pub fn changeable(&self) -> Vec<(u32, u32)> {
        let mut all: Vec<(u32, u32)> = (1..=self.elements.len() as u32)
            .map(|key| (E, key))
            .collect();
        all.extend(self.heats.iter().map(|card| (H, card[0])));
        all.extend(self.films.iter().map(|card| (F, card[0])));
        all.extend(self.fixed.iter().map(|card| (T, card[0])));
        all
    }

    /// In the order that they must have; of those that are equal in it, one.
    pub fn sort_changes(&mut self) {
        self.changes.sort_by_key(by_turn);
        self.changes.dedup_by_key(|change| by_turn(change));
    }

    /// So many changes by chance, at increments up to that one, most of them such that a sheet builds with them; `wild` of them one
    /// time in four have a value that is refused, or an increment that no run reaches.
    pub fn change(&mut self, chance: &mut Chance, many: usize, last: u32, wild: bool) {
        let named = self.changeable();
        if named.is_empty() {
            return;
        }
        for _ in 0..many {
            // As often of each letter, where the deck has it.
            let letter = chance.pick(&NAMED);
            let of: Vec<(u32, u32)> = named.iter().copied().filter(|c| c.0 == letter).collect();
            let (letter, key) = chance.pick(if of.is_empty() { &named } else { &of });
            let mut change = [chance.within(1, last), letter, key, 0, 0];
            let values = chance.new_values(letter, self.materials.len() as u32);
            change[3..].copy_from_slice(&values);
            if wild && chance.one_in(4) {
                match chance.within(0, 3) {
                    0 => change[0] = chance.pick(&[(last + 1).min(100_000), 99_999, 100_000]),
                    1 => change[3] = chance.pick(&[0, 9, 5_000_001, MOST_VALUE]),
                    2 if letter == E || letter == F => {
                        change[4] = chance.pick(&[0, 4_001, TOP + 1, MOST_VALUE])
                    }
                    _ => change[3] = chance.within(0, MOST_VALUE),
                }
            }
            self.changes.push(change);
        }
        self.sort_changes();
        self.changes.truncate(MOST_CHANGES);
    }

    /// One time in two with some changes, of any value and at any increment.
    pub fn varied(mut self, chance: &mut Chance) -> Groups {
        if chance.one_in(2) {
            let many = chance.pick(&[1, 2, 5, MOST_CHANGES]);
            let last = chance.pick(&[self.d[2], self.d[2], 1, 100_000]);
            self.change(chance, many, last, true);
        }
        self
    }

    /// As many changes as there may be, over the deck's changeable cards in turn; it builds with each.
    pub fn change_most(&mut self) {
        let named = self.changeable();
        for at in 0..MOST_CHANGES {
            let (letter, key) = named[at * named.len() / MOST_CHANGES];
            let values = match letter {
                E => [1, 1_500],
                F => [9_000, 19_660_900],
                H => [2_000, 0],
                _ => [19_660_700, 0],
            };
            let step = 1 + at as u32 % self.d[2];
            self.changes.push([step, letter, key, values[0], values[1]]);
        }
        self.sort_changes();
    }
}

impl Chance {
    /// New values such as a sheet's own.
    pub fn new_values(&mut self, letter: u32, materials: u32) -> [u32; 2] {
        match letter {
            E => [self.within(1, materials), self.within(800, 2_000)],
            H => [self.within(1, 500_000), 0],
            F => [self.within(1, 100_000), self.within(15_000_000, 25_000_000)],
            _ => [self.within(15_000_000, 25_000_000), 0],
        }
    }
}

/// What an evening ends in: the refusal, if any, and the steps done.
pub type Evening = (Option<Refusal>, u32);

impl KeptLent {
    /// So many steps, all accepted.
    pub fn steps(&mut self, steps: u32) {
        for _ in 0..steps {
            assert!(matches!(self.step(), Stepped::Settled(_)));
        }
    }

    /// The deck's steps by hand: changes as replacements, each step alone. What it leaves is in the lent slices.
    pub fn by_hand(&mut self) -> Evening {
        let changes = changes_of(&self.table);
        let steps = self.table[3];
        for step in 1..=steps {
            for (_, change) in changes.iter().filter(|(_, change)| change[1] == step) {
                let (card, new) = replacement_of(&self.table, change).expect("a judged deck's");
                if let Answer::Refused(refusal) = self.replace(card, new) {
                    return (Some(refusal), step - 1);
                }
            }
            if let Stepped::Refused(refusal) = self.step() {
                return (Some(refusal), step - 1);
            }
        }
        (None, steps)
    }

    /// The same by fresh builds of the present deck, its cards written by hand: no replacement. Of a deck whose build was accepted,
    /// and all but the work slice, which a build clears where an H or a T replaced leaves it.
    pub fn by_builds(&mut self) -> Evening {
        let changes = changes_of(&self.table);
        let steps = self.table[3];
        for step in 1..=steps {
            for (_, change) in changes.iter().filter(|(_, change)| change[1] == step) {
                let (card, new) = replacement_of(&self.table, change).expect("a judged deck's");
                let at = 6 * (card as usize - 1);
                let old = self.table[at..at + 6].to_vec();
                self.table[at..at + 6].copy_from_slice(&new);
                // Of the new deck only what changed can be refused, and where it stands: as its replacement is.
                if let Answer::Refused(refusal) = self.build() {
                    self.table[at..at + 6].copy_from_slice(&old);
                    assert_eq!(self.build(), Answer::Done);
                    return (Some(refusal), step - 1);
                }
            }
            if let Stepped::Refused(refusal) = self.step() {
                return (Some(refusal), step - 1);
            }
        }
        (None, steps)
    }
}
