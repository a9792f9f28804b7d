//! Makes a case that disagrees small, by edits after which it still does.

use crate::case::{Call, Case};
use crate::decks::{expanded, firsts, shrunk, starts_of, triangle, C, E, F, G, H, M, N, R, T, V};
use std::time::{Duration, Instant};

const MOST: Duration = Duration::from_secs(20);

/// A case that disagrees, and the time until which it is made smaller.
struct Small {
    case: Case,
    until: Instant,
}

pub fn shrink(case: Case) -> Case {
    let mut small = Small {
        case,
        until: Instant::now() + MOST,
    };
    loop {
        let before = small.case.clone();
        small.unused();
        small.bytes();
        small.rows();
        small.lengths();
        small.fields();
        small.numbers();
        if small.case == before || Instant::now() > small.until {
            return small.case;
        }
    }
}

impl Small {
    /// Keeps an edit if the case still disagrees.
    fn attempt(&mut self, edit: impl FnOnce(&mut Case) -> Option<()>) -> bool {
        if Instant::now() > self.until {
            return false;
        }
        let mut edited = self.case.clone();
        let kept = edit(&mut edited).is_some() && edited != self.case && edited.differs();
        if kept {
            self.case = edited;
        }
        kept
    }

    /// What the call doesn't take.
    fn unused(&mut self) {
        self.attempt(|case| {
            let index = case.call.index();
            if index >= 2 {
                case.lent.bytes.clear();
            }
            if index < 4 {
                case.lent.temperatures.clear();
                case.lent.carried.clear();
            }
            if index < 2 {
                case.lent.matrices.iter_mut().for_each(Vec::clear);
                case.lent.starts.clear();
            }
            Some(())
        });
    }

    /// Cuts the reader's bytes: halves first, then less.
    fn bytes(&mut self) {
        let mut size = self.case.lent.bytes.len();
        while size > 0 {
            let mut at = 0;
            while at < self.case.lent.bytes.len() {
                let cut = self.attempt(|case| {
                    let end = (at + size).min(case.lent.bytes.len());
                    drop(case.lent.bytes.drain(at..end));
                    Some(())
                });
                if !cut {
                    at += size;
                }
            }
            size /= 2;
        }
    }

    /// Takes out cards, the last first: of a table, or of the reader's bytes.
    fn rows(&mut self) {
        let lent = &self.case.lent;
        let (rows, cut): (usize, fn(&mut Case, usize) -> Option<()>) = match self.case.call {
            Call::Read => (lent.bytes.len() / 42, without_bytes),
            _ => (lent.table.len() / 6, without_all),
        };
        for row in (0..rows.saturating_sub(1)).rev() {
            if !self.attempt(|case| cut(case, row)) {
                self.attempt(|case| less_room(case).and_then(|()| cut(case, row)));
            }
        }
    }

    /// Lengths past what is asked, the table's first: a short one may be what it is about.
    fn lengths(&mut self) {
        if self.case.call == Call::Read {
            while self.attempt(|case| case.lent.table.pop().map(drop)) {}
        }
        for which in 0..6 {
            while self.attempt(|case| slice(case, which).pop().map(drop)) {}
        }
        while self.attempt(|case| case.lent.starts.pop().map(drop)) {}
    }

    /// Fields of the cards and of the new one, to smaller numbers.
    fn fields(&mut self) {
        for at in 0..self.case.lent.table.len() {
            if at % 6 != 0 && self.case.call != Call::Read {
                self.lessen(|case| Some(&mut case.lent.table[at]));
            }
        }
        for at in 1..6 {
            self.lessen(|case| match &mut case.call {
                Call::Replace { new, .. } => Some(&mut new[at]),
                _ => None,
            });
        }
    }

    fn lessen(&mut self, field: impl Fn(&mut Case) -> Option<&mut u32>) {
        let steps: [fn(u32) -> u32; 4] =
            [|_| 0, |_| 1, |number| number / 2, |number| number / 10 * 10];
        for step in steps {
            self.attempt(|case| {
                let number = field(case)?;
                *number = step(*number);
                Some(())
            });
        }
    }

    /// The lent numbers: whole slices to zero, then one by one.
    fn numbers(&mut self) {
        for which in 0..6 {
            self.attempt(|case| {
                slice(case, which).fill(0);
                Some(())
            });
            for at in 0..slice(&mut self.case, which).len() {
                if slice(&mut self.case, which)[at] == 0 {
                    continue;
                }
                let steps: [fn(i64) -> i64; 3] =
                    [|_| 0, |number| number.signum(), |number| number / 2];
                for step in steps {
                    self.attempt(|case| {
                        let number = &mut slice(case, which)[at];
                        *number = step(*number);
                        Some(())
                    });
                }
            }
        }
    }
}

/// The four matrices, the temperatures and what is carried, by number.
fn slice(case: &mut Case, which: usize) -> &mut Vec<i64> {
    match which {
        4 => &mut case.lent.temperatures,
        5 => &mut case.lent.carried,
        _ => &mut case.lent.matrices[which],
    }
}

/// Takes out one card, counted from the front of the bytes' last cards, and has the trailer say so.
fn without_bytes(case: &mut Case, row: usize) -> Option<()> {
    let bytes = &mut case.lent.bytes;
    let at = bytes.len() % 42 + 42 * row;
    if at + 84 > bytes.len() {
        return None;
    }
    let trailer = std::str::from_utf8(&bytes[bytes.len() - 42..]).ok()?;
    let mut fields: Vec<u32> = (0..5)
        .map(|i| trailer.get(1 + 8 * i..9 + 8 * i)?.trim().parse().ok())
        .collect::<Option<_>>()?;
    let count = match u32::from(bytes[at]) {
        N => 1,
        M => 2,
        E | V => 3,
        H | F | G | R | T | C => 4,
        _ => return None,
    };
    fields[count] = fields[count].checked_sub(1)?;
    fields[0] = fields[0].checked_sub(42)?;
    let fields: String = fields.iter().map(|field| format!("{field:8}")).collect();
    bytes.truncate(bytes.len() - 42);
    bytes.extend(format!("Z{fields}\n").bytes());
    drop(bytes.drain(at..at + 42));
    Some(())
}

/// One card less to be read or written into.
fn less_room(case: &mut Case) -> Option<()> {
    let Case { call, lent } = case;
    match call {
        Call::Read => lent.table.truncate(lent.table.len().checked_sub(6)?),
        Call::Write => lent.bytes.truncate(lent.bytes.len().checked_sub(42)?),
        _ => return None,
    }
    Some(())
}

/// Takes out one card; with an element its loads go too, and the nodes that no other has.
fn without_all(case: &mut Case, row: usize) -> Option<()> {
    let table = &case.lent.table;
    if !is_element(*table.get(6 * row)?) {
        return without(case, row);
    }
    let element = ordinal(table, row);
    take_all(case, |_, card| {
        let change = card[0] == C && [E, H, F].contains(&card[2]) && card[3] == element;
        change || ((card[0] == H || card[0] == F) && card[1] == element)
    })?;
    without(case, row)?;
    let elements = case.lent.table.chunks(6).filter(|card| is_element(card[0]));
    let corners = |card: &[u32]| card[1..4 + usize::from(card[0] == V)].to_vec();
    let used: Vec<u32> = elements.flat_map(corners).collect();
    take_all(case, |_, card| {
        card[0] == C && card[2] == T && !used.contains(&card[3])
    })?;
    take_all(case, |_, card| card[0] == T && !used.contains(&card[1]))?;
    take_all(case, |_, card| {
        card[0] == G && !card[1..3].iter().all(|node| used.contains(node))
    })?;
    take_all(case, |key, card| card[0] == N && !used.contains(&key))
}

/// Takes out every card that the test says, given its number within its group; the last first.
fn take_all(case: &mut Case, test: impl Fn(u32, &[u32]) -> bool) -> Option<()> {
    for row in (0..case.lent.table.len() / 6).rev() {
        let table = &case.lent.table;
        if test(ordinal(table, row), &table[6 * row..6 * row + 6]) {
            without(case, row)?;
        }
    }
    Some(())
}

/// Is a card of that letter an element? E and V are numbered together.
fn is_element(letter: u32) -> bool {
    letter == E || letter == V
}

/// The number of a card within its group, or among the elements, from 1.
fn ordinal(table: &[u32], row: usize) -> u32 {
    let letter = table[6 * row];
    let alike = |other: u32| other == letter || (is_element(other) && is_element(letter));
    let cards = table[..=6 * row].chunks(6);
    cards.filter(|card| alike(card[0])).count() as u32
}

/// Takes out one card. None where another card names what it describes. What is lent lies as the rest of the deck has it, by its own
/// starts where they were its own.
fn without(case: &mut Case, row: usize) -> Option<()> {
    let before = firsts(&case.lent.table);
    let own = case.lent.starts.starts_with(&starts_of(&case.lent.table));
    let table = &mut case.lent.table;
    let letter = table[6 * row];
    let trailer = table.len() - 6;
    let count = trailer
        + match letter {
            N => 2,
            M => 3,
            E | V => 4,
            H | F | G | R | T | C => 5,
            _ => return None,
        };
    table[count] = table[count].checked_sub(1)?;
    table[trailer + 1] = table[trailer + 1].checked_sub(42)?;
    let key = ordinal(table, row);
    let nodes = table.chunks(6).filter(|card| card[0] == N).count();
    drop(table.drain(6 * row..6 * row + 6));
    for card in table.chunks_mut(6) {
        renumber(card, letter, key)?;
    }
    if let Call::Replace { card, new } = &mut case.call {
        match (*card as usize).cmp(&(row + 1)) {
            std::cmp::Ordering::Equal => return None,
            std::cmp::Ordering::Greater => *card -= 1,
            std::cmp::Ordering::Less => {}
        }
        renumber(new, letter, key)?;
    }
    let node = (letter == N).then_some(key as usize - 1);
    if let Some(node) = node {
        for numbers in [&mut case.lent.temperatures, &mut case.lent.carried] {
            if node < numbers.len() {
                numbers.remove(node);
            }
        }
        if node < case.lent.starts.len() {
            case.lent.starts.remove(node);
        }
    }
    let now = firsts(&case.lent.table);
    for matrix in &mut case.lent.matrices {
        let mut packed = expanded(&before, matrix, || 0);
        let short = triangle(nodes).saturating_sub(packed.len());
        packed.resize(packed.len() + short, 0);
        if let Some(node) = node {
            without_node(&mut packed, nodes, node);
        }
        if packed.len() < triangle(now.len()) {
            return None;
        }
        *matrix = shrunk(&now, &packed);
        matrix.truncate(matrix.len().saturating_sub(short));
    }
    if own {
        let starts = starts_of(&case.lent.table);
        let length = starts.len().min(case.lent.starts.len());
        case.lent.starts[..length].copy_from_slice(&starts[..length]);
    }
    Some(())
}

/// The numbers of a card after the one of that letter and key is gone; None if it names it.
fn renumber(card: &mut [u32], gone: u32, key: u32) -> Option<()> {
    let named: &[usize] = match (gone, card[0]) {
        (N, E) => &[1, 2, 3],
        (N, V) => &[1, 2, 3, 4],
        (N, G) => &[1, 2],
        (N, T) | (E | V, H | F) => &[1],
        (M, E) => &[4],
        (M, V) => &[5],
        (N, C) if card[2] == T => &[3],
        (E | V, C) if [E, H, F].contains(&card[2]) => &[3],
        _ => &[],
    };
    for &field in named {
        if card[field] == key {
            return None;
        }
        card[field] -= u32::from(card[field] > key);
    }
    Some(())
}

/// Takes a row and its column out of a packed triangle.
fn without_node(matrix: &mut Vec<i64>, nodes: usize, node: usize) {
    let mut at = 0;
    let rows = (0..nodes).flat_map(|i| (0..=i).map(move |j| (i, j)));
    let length = triangle(nodes).min(matrix.len());
    let gone: Vec<bool> = rows
        .take(length)
        .map(|(i, j)| i == node || j == node)
        .collect();
    matrix.retain(|_| {
        at += 1;
        !gone.get(at - 1).copied().unwrap_or(false)
    });
}
