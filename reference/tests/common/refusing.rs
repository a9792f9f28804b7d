//! What a refusal is, and what it leaves, asked of the calls.

use super::*;
use reference::{read, write};

/// All that takes a table refuses it the same way and writes nothing.
pub fn table_refused(table: &[u32], number: u8, place: u32) {
    let matrix = vec![MARK; triangle(96)];
    let before = Lent {
        table: table.to_vec(),
        p: matrix.clone(),
        a: matrix.clone(),
        factor: matrix.clone(),
        work: matrix,
        temperatures: vec![MARK; 96],
        carried: vec![MARK; 96],
    };
    let mut lent = before.clone();
    assert_eq!(lent.build(), refused(number, place));
    for (card, new) in [(9, [0; 6]), (u32::MAX, [u32::MAX; 6])] {
        assert_eq!(lent.replace(card, new), refused(number, place));
    }
    assert_eq!(lent.step(), step_refused(number, place));
    assert_eq!(lent.run(), Ran::Refused(Refusal { number, place }));
    assert_eq!(lent, before);
    for length in [7 * table.len(), 40_000] {
        let mut bytes = vec![9; length];
        assert_eq!(write(table, &mut bytes), refused(number, place));
        assert_eq!(bytes, vec![9; length]);
    }
}

pub fn bytes_refused(bytes: &[u8], number: u8, place: u32) {
    let mut table = vec![9; 6_396];
    assert_eq!(read(bytes, &mut table), (refused(number, place), 0, 0));
    assert_eq!(table, vec![9; 6_396]);
}

/// The deck is written as its text is, and read again.
pub fn accepts(table: &[u32]) {
    let bytes = bytes_of(table);
    assert_eq!(bytes, text_of(table));
    let mut again = vec![9; table.len()];
    assert_eq!(read(&bytes, &mut again), (Answer::Done, 0, bytes.len()));
    assert_eq!(again, table);
}

/// A build of the deck is refused, and leaves what it may.
pub fn build_refused(groups: &Groups, number: u8, place: u32) {
    let before = Lent::new(groups.table());
    let mut lent = before.clone();
    assert_eq!(lent.build(), refused(number, place));
    assert_eq!(lent, before.left_by(number));
}

impl Lent {
    /// A replacement is answered so; a refused one leaves what it may.
    pub fn answers(&self, card: u32, new: Card, answer: Answer) {
        let mut before = self.clone();
        before.work.fill(MARK);
        let mut lent = before.clone();
        assert_eq!(lent.replace(card, new), answer, "{card} {new:?}");
        if let Answer::Refused(refusal) = answer {
            assert_eq!(lent, before.left_by(refusal.number));
        }
    }

    /// As a refused build, or E, V, F or G replacement, leaves it: 7 and 8 zero the work slice.
    fn left_by(self, number: u8) -> Lent {
        match number {
            7 | 8 => self.with_zeroed_work(),
            _ => self,
        }
    }
}
