//! The thermal bench's records, which become the H, F and T cards of a deck that has none.

use crate::answer::*;
use crate::card::*;
use crate::judge::{in_range, rising, Deck};
use crate::single::{is_finite, nearest_product};

const RECORD_BYTES: usize = 12;
const MAX_RECORDS_BYTES: usize = 65_536;

/// A kind of record: its letter, and what each of its values is multiplied by to be a field. The values past those are unused.
type Kind = (u32, &'static [u32]);

/// µW of watts, mW of watts, ticks of kelvins.
const MICRO: u32 = 1_000_000;
const MILLI: u32 = 1_000;
const KELVIN: u32 = 65_536;

/// A record as it lies, its two values by their bits.
struct Record {
    kind: u16,
    number: u16,
    values: [u32; 2],
}

impl Record {
    fn of(bytes: &[u8]) -> Record {
        let half = |at: usize| u16::from_le_bytes([bytes[at], bytes[at + 1]]);
        let value = |at: usize| u32::from(half(at)) | u32::from(half(at + 2)) << 16;
        Record {
            kind: half(0),
            number: half(2),
            values: [value(4), value(8)],
        }
    }

    fn kind(&self) -> Option<Kind> {
        match self.kind {
            1 => Some((H, &[MICRO])),
            2 => Some((F, &[MILLI, KELVIN])),
            3 => Some((T, &[KELVIN])),
            _ => None,
        }
    }

    /// Its card where it is one: 16, then 15, then 4 where a field can't even be a number of a card.
    fn card(&self) -> Result<Card, u8> {
        let (letter, times) = self.kind().ok_or(GARBLED)?;
        let (used, unused) = self.values.split_at(times.len());
        if unused.iter().any(|&bits| bits != 0) {
            return Err(GARBLED);
        }
        if !used.iter().all(|&bits| is_finite(bits)) {
            return Err(INFINITE);
        }
        let mut card = [letter, u32::from(self.number), 0, 0, 0, 0];
        for ((field, &bits), &times) in card[2..].iter_mut().zip(used).zip(times) {
            *field = u32::try_from(nearest_product(bits, times)).map_err(|_| RANGE)?;
        }
        Ok(card)
    }

    /// The last one, after so many.
    fn is_tail(&self, count: usize) -> bool {
        self.kind == 0 && usize::from(self.number) == count && self.values == [0, 0]
    }
}

/// Fills the second table with the deck and, in their places, the cards that the records are.
pub fn import(table: &[u32], records: &[u8], second: &mut [u32]) -> Answer {
    try_import(table, records, second).into()
}

fn try_import(table: &[u32], records: &[u8], second: &mut [u32]) -> Result<(), Refusal> {
    let deck = Deck::judge(table)?;
    let first = deck.counts.first_load();
    if let Some(at) = deck.loads().position(|card| [H, F, T].contains(&card[0])) {
        return Err(Refusal::at_index(REPLACEMENT, first + at));
    }
    let length = records.len();
    if length == 0 || length > MAX_RECORDS_BYTES || length % RECORD_BYTES != 0 {
        return Err(Refusal::whole(LENGTH));
    }

    let (records, tail) = records.split_at(length - RECORD_BYTES);
    let records = || records.chunks_exact(RECORD_BYTES).map(Record::of);
    let count = judge_all(&deck, records(), &Record::of(tail))?;

    // Of each element one H, of each triangle one F, of each node one T at most, and the deck's own G, R and C: never too many.
    let rows = deck.counts.rows() + count;
    if second.len() < 6 * rows {
        return Err(Refusal::whole(SHORT));
    }
    // All were judged, so all are cards.
    let new = |held: bool| {
        let cards = records().filter_map(|record| record.card().ok());
        cards.filter(move |card| (card[0] == T) == held)
    };
    let own = |letter: u32| deck.loads().filter(move |card| card[0] == letter);
    let cards = deck.cards().take(first);
    let cards = cards.chain(new(false)).chain(own(G)).chain(own(R));
    let cards = cards.chain(new(true)).chain(own(C));
    let cards = cards.chain([trailer(&deck, count)]);
    for (row, card) in second.chunks_exact_mut(6).zip(cards) {
        row.copy_from_slice(&card);
    }
    Ok(())
}

/// Each record in turn, then the last. How many come before it.
fn judge_all(
    deck: &Deck,
    records: impl Iterator<Item = Record>,
    tail: &Record,
) -> Result<usize, Refusal> {
    let mut before = [0; 6];
    let mut count = 0;
    for record in records {
        before =
            judge(deck, &before, &record).map_err(|number| Refusal::at_index(number, count))?;
        count += 1;
    }
    if !tail.is_tail(count) {
        return Err(Refusal::at_index(GARBLED, count));
    }
    Ok(count)
}

/// The card of a record that comes after that card, none at first; or 16, 15 or 4.
fn judge(deck: &Deck, before: &Card, record: &Record) -> Result<Card, u8> {
    let card = record.card()?;
    // H, F, T: as the kinds rise.
    let falls = match before[0] {
        F => card[0] == H,
        T => card[0] != T,
        _ => false,
    };
    let on_a_solid = card[0] == F && card[1] as usize > deck.triangles();
    let ranged = in_range(&deck.counts, deck.solid, &card);
    if falls || !ranged || on_a_solid || !rising(before, &card) {
        return Err(RANGE);
    }
    Ok(card)
}

/// Z with so many cards more.
fn trailer(deck: &Deck, count: usize) -> Card {
    let [_, _, nodes, materials, elements, loads] = deck.card(deck.counts.trailer());
    let back = CARD_BYTES * (deck.counts.rows() + count - 1);
    [
        Z,
        back as u32,
        nodes,
        materials,
        elements,
        loads + count as u32,
    ]
}
