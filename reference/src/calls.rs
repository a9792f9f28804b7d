//! The calls but `import`: reading and writing, and over any layout of the matrices what `packed` and `kept` offer.

use crate::answer::*;
use crate::card::*;
use crate::element::{change, triangle, Element, Form};
use crate::judge::{in_range, well_formed, Counts, Deck, Shape, Turn};
use crate::layout::Layout;
use crate::step::{on_scale, Stepper};
use crate::{edge, solid, text};

/// Reads the deck at the end of the bytes into the table. Answers also the bounds
/// of the part from D to Z, both whole; 0 and 0 on a refusal.
pub fn read(bytes: &[u8], table: &mut [u32]) -> (Answer, usize, usize) {
    match try_read(bytes, table) {
        Ok(start) => (Answer::Done, start, bytes.len()),
        Err(refusal) => (Answer::Refused(refusal), 0, 0),
    }
}

fn try_read(bytes: &[u8], table: &mut [u32]) -> Result<usize, Refusal> {
    if bytes.len() < CARD_BYTES || bytes.len() > MAX_BYTES {
        return Err(Refusal::whole(LENGTH));
    }
    let at_trailer = bytes.len() - CARD_BYTES;
    let (trailer, _) = text::scan(&bytes[at_trailer..], false).ok_or(Refusal::whole(TRAILER))?;
    let counts = Counts::of(&trailer).ok_or(Refusal::whole(TRAILER))?;
    let start = at_trailer
        .checked_sub(counts.bytes_back())
        .ok_or(Refusal::whole(TRAILER))?;
    let solid = u32::from(bytes[start + CARD_BYTES * counts.last_element()]) == V;

    // Nothing may be written before the last card is judged: the cards are scanned twice.
    let cards = || {
        bytes[start..at_trailer]
            .chunks_exact(CARD_BYTES)
            .map(|card| text::scan(card, solid))
    };
    let mut turn = Turn::first(counts, solid);
    for (index, card) in cards().enumerate() {
        let (card, filled) = card.ok_or(Refusal::at_index(FORM, index))?;
        turn.judge(&card, filled)?;
    }
    if table.len() < 6 * counts.rows() {
        return Err(Refusal::whole(SHORT));
    }
    let all = cards().flatten().map(|(card, _)| card).chain([trailer]);
    for (row, card) in table.chunks_exact_mut(6).zip(all) {
        row.copy_from_slice(&card);
    }
    Ok(start)
}

/// Writes the table's cards as bytes.
pub fn write(table: &[u32], bytes: &mut [u8]) -> Answer {
    try_write(table, bytes).into()
}

fn try_write(table: &[u32], bytes: &mut [u8]) -> Result<(), Refusal> {
    let deck = Deck::judge(table)?;
    if bytes.len() < CARD_BYTES * deck.counts.rows() {
        return Err(Refusal::whole(SHORT));
    }
    for (part, card) in bytes.chunks_exact_mut(CARD_BYTES).zip(deck.cards()) {
        text::print(&card, deck.solid, part);
    }
    Ok(())
}

/// Makes P, A, the factor and, of the kept form, the row starts of a deck.
pub fn build<L: Layout>(
    table: &[u32],
    lent: [&mut [i64]; 4],
    starts: &mut [u32],
) -> Result<(), Refusal> {
    let deck = Deck::judge(table)?;
    let layout = L::of(&deck);
    let [p, a, factor, work] = cut(&layout, lent, starts)?;

    let mut elements = [Element::EMPTY; MAX_ELEMENTS];
    let elements = &mut elements[..deck.counts.elements];
    for (number, element) in elements.iter_mut().enumerate() {
        *element = Element::of(&deck, number)?;
        element.judge(number)?;
    }
    for card in deck.loads().filter(|card| card[0] == F) {
        elements[card[1] as usize - 1].cover(card[2]);
    }

    work.fill(0);
    add_all(&layout, work, &deck, elements);
    layout.fix(work, 0, &deck.fixed());
    let result = layout.factor(&[], work, 0);
    if result.is_ok() {
        factor.copy_from_slice(work);
        p.fill(0);
        a.fill(0);
        for element in elements.iter() {
            element.add_capacity(&layout, p);
        }
        add_all(&layout, a, &deck, elements);
        layout.tell(starts);
    }
    work.fill(0);
    result
}

/// A of the elements and of the deck's edges, into zeros.
fn add_all(layout: &impl Layout, matrix: &mut [i64], deck: &Deck, elements: &[Element]) {
    for element in elements {
        element.add_total(layout, matrix);
    }
    for card in deck.loads().filter(|card| card[0] == G) {
        let square = edge::square(edge::share(deck, &card));
        layout.add(matrix, edge::ends(&card), square);
    }
}

/// Replaces one card of a deck, and of P, A and the factor what depends on it.
pub fn replace<L: Layout>(
    table: &mut [u32],
    lent: [&mut [i64]; 4],
    starts: &[u32],
    card: u32,
    new: Card,
) -> Result<(), Refusal> {
    let deck = Deck::judge(table)?;
    let index = judge_new(&deck, card, &new)?;
    let layout = L::of(&deck);
    let lent = cut(&layout, lent, starts)?;
    judge_starts(&layout, starts)?;
    let [p, a, factor, _] = &lent;
    judge_lent(&layout, [p, a, factor])?;

    let old = deck.card(index);
    let model = Model {
        deck: &deck,
        layout: &layout,
    };
    match new[0] {
        E | F => {
            let (old_form, new_form) = forms_of_change(&deck, index, &old, &new)?;
            model.exchange(lent, &old_form, &new_form)?;
        }
        V => {
            let element = index - deck.counts.first_element();
            let new_form = solid::form(&deck, element, &new)?;
            new_form.judge(element)?;
            model.exchange(lent, &solid::form(&deck, element, &old)?, &new_form)?;
        }
        G => {
            // Of A alone, and no element is judged.
            let more = edge::share(&deck, &new) - edge::share(&deck, &old);
            model.redo(lent, edge::ends(&new), [[0; 2]; 2], edge::square(more))?;
        }
        _ => {}
    }
    table[6 * index..6 * index + 6].copy_from_slice(&new);
    Ok(())
}

struct Model<'a, L> {
    deck: &'a Deck<'a>,
    layout: &'a L,
}

impl<L: Layout> Model<'_, L> {
    /// P, A and the factor with an element's new form in the place of its old one.
    fn exchange<const K: usize>(
        &self,
        lent: [&mut [i64]; 4],
        old: &Form<K>,
        new: &Form<K>,
    ) -> Result<(), Refusal> {
        let change_p = change(new.capacity(), old.capacity());
        let change_a = change(new.total(), old.total());
        self.redo(lent, new.corners, change_p, change_a)
    }

    /// P and A with a change at some nodes, and the factor redone from the least of them; or 7 or 8, and the work slice alone written.
    fn redo<const K: usize>(
        &self,
        [p, a, factor, work]: [&mut [i64]; 4],
        nodes: [usize; K],
        change_p: [[i64; K]; K],
        change_a: [[i64; K]; K],
    ) -> Result<(), Refusal> {
        let layout = self.layout;
        // All places of the change are in the rows from the least node on.
        let first = nodes.into_iter().fold(MAX_NODES, usize::min);
        let from = layout.start(first);
        work[from..].copy_from_slice(&a[from..]);
        layout.add(work, nodes, change_a);
        layout.fix(work, first, &self.deck.fixed());
        let (above, lower) = factor.split_at_mut(from);
        let result = layout.factor(above, &mut work[from..], first);
        if result.is_ok() {
            lower.copy_from_slice(&work[from..]);
            layout.add(p, nodes, change_p);
            layout.add(a, nodes, change_a);
        }
        work.fill(0);
        result
    }
}

/// 3, 13 and 4 of a new card; the index of the card that it replaces, D being 0.
fn judge_new(deck: &Deck, card: u32, new: &Card) -> Result<usize, Refusal> {
    if !well_formed(new) {
        return Err(Refusal::at(FORM, card));
    }
    let index = (card as usize)
        .checked_sub(1)
        .filter(|&index| index < deck.counts.rows())
        .ok_or(Refusal::at(REPLACEMENT, card))?;
    let old = deck.card(index);
    // The letter and what must stay with it: E's or V's corners, G's ends, or the element or node named.
    let kept = match new[0] {
        V => 5,
        E => 4,
        G => 3,
        H | F | T => 2,
        _ => return Err(Refusal::at(REPLACEMENT, card)),
    };
    if old[..kept] != new[..kept] {
        return Err(Refusal::at(REPLACEMENT, card));
    }
    // It still rises and lies well, since its key stays.
    if !in_range(&deck.counts, deck.solid, new) {
        return Err(Refusal::at(RANGE, card));
    }
    Ok(index)
}

/// The old and new form of the element that an E or F names: 5 and 14, which both have or neither, and 6 of the new one.
/// An E leaves the film as it is, so its film is left out of both.
fn forms_of_change(
    deck: &Deck,
    index: usize,
    old: &Card,
    new: &Card,
) -> Result<(Form<3>, Form<3>), Refusal> {
    let (element, old_form, new_form);
    if new[0] == E {
        element = index - deck.counts.first_element();
        new_form = triangle(deck, element, new)?;
        old_form = triangle(deck, element, old)?;
    } else {
        element = new[1] as usize - 1;
        let form = triangle(deck, element, &deck.element(element))?;
        new_form = form.with_film(new[2]);
        old_form = form.with_film(old[2]);
    }
    new_form.judge(element)?;
    Ok((old_form, new_form))
}

/// One step from the lent temperatures and the residuals that the step before it left.
pub fn step<L: Layout>(
    table: &[u32],
    lent: [&[i64]; 3],
    starts: &[u32],
    temperatures: &mut [i64],
    carried: &mut [i64],
) -> Result<u32, Refusal> {
    let one = |stepper: &Stepper<L>, temperatures: &mut [i64], carried: &mut [i64]| {
        stepper.step(temperatures, carried)
    };
    judged(table, lent, starts, [temperatures, carried], one)
}

/// D's number of steps, up to the first refusal; each hands temperatures and residuals to the next. Before step k the changes of
/// increment k are made as replacements, in order; one that is refused ends the run, and those before it stay made.
pub fn run<L: Layout>(
    table: &mut [u32],
    [p, a, factor, work]: [&mut [i64]; 4],
    starts: &[u32],
    temperatures: &mut [i64],
    carried: &mut [i64],
) -> Result<u32, Refusal> {
    let deck = Deck::judge(table)?;
    let (shape, steps) = (deck.shape(), deck.steps());
    let mut at = deck.first_change();
    let mut done = 0;
    while done < steps {
        let lent = [&mut *p, &mut *a, &mut *factor, &mut *work];
        at = change_all::<L>(table, shape, lent, starts, at, done + 1)?;
        let next = Deck::shaped(table, shape).change(at);
        let until = next.map_or(steps, |change| steps.min(change[1] - 1));
        let both = [&mut *temperatures, &mut *carried];
        alike::<L>(table, [p, a, factor], starts, both, until - done)?;
        done = until;
    }
    Ok(steps)
}

/// Makes the changes of an increment from that index on; the index after them.
fn change_all<L: Layout>(
    table: &mut [u32],
    shape: Shape,
    [p, a, factor, work]: [&mut [i64]; 4],
    starts: &[u32],
    mut at: usize,
    increment: u32,
) -> Result<usize, Refusal> {
    loop {
        let deck = Deck::shaped(table, shape);
        let Some(change) = deck.change(at).filter(|change| change[1] == increment) else {
            return Ok(at);
        };
        let (card, new) = deck.changed(&change);
        let lent = [&mut *p, &mut *a, &mut *factor, &mut *work];
        replace::<L>(table, lent, starts, card, new)?;
        at += 1;
    }
}

/// So many steps with no change between them. What a step asks of the deck, the matrices and the row starts is the same each time, and
/// asked once. So are 10 of the residuals and 11 of the temperatures: a step leaves residuals within its row bounds, which 10 of A
/// holds to 2^33, and temperatures on the scale.
fn alike<L: Layout>(
    table: &[u32],
    lent: [&[i64]; 3],
    starts: &[u32],
    both: [&mut [i64]; 2],
    steps: u32,
) -> Result<u32, Refusal> {
    let all = |stepper: &Stepper<L>, temperatures: &mut [i64], carried: &mut [i64]| {
        for _ in 0..steps {
            stepper.step(temperatures, carried)?;
        }
        Ok(steps)
    };
    judged(table, lent, starts, both, all)
}

/// The judging before a step, then `work` with the stepper, the n temperatures and the n residuals.
fn judged<L: Layout>(
    table: &[u32],
    [p, a, factor]: [&[i64]; 3],
    starts: &[u32],
    [temperatures, carried]: [&mut [i64]; 2],
    work: impl Fn(&Stepper<L>, &mut [i64], &mut [i64]) -> Result<u32, Refusal>,
) -> Result<u32, Refusal> {
    let deck = Deck::judge(table)?;
    let layout = L::of(&deck);
    let (n, length) = (deck.counts.nodes, layout.length());
    let short = |slice: &[i64]| slice.len() < length;
    if short(p) || short(a) || short(factor) || layout.short(starts) {
        return Err(Refusal::whole(SHORT));
    }
    let [temperatures, carried] = [part(temperatures, n)?, part(carried, n)?];
    judge_starts(&layout, starts)?;
    judge_lent(&layout, [p, a, factor])?;
    judge_carried(carried)?;
    on_scale(temperatures)?;
    let stepper = Stepper::new(&deck, layout, [p, a, factor]);
    work(&stepper, temperatures, carried)
}

/// The parts of four lent matrices that count, or 9 of one of them or of the row starts.
fn cut<'a>(
    layout: &impl Layout,
    [p, a, factor, work]: [&'a mut [i64]; 4],
    starts: &[u32],
) -> Result<[&'a mut [i64]; 4], Refusal> {
    if layout.short(starts) {
        return Err(Refusal::whole(SHORT));
    }
    let length = layout.length();
    Ok([
        part(p, length)?,
        part(a, length)?,
        part(factor, length)?,
        part(work, length)?,
    ])
}

/// The part of a lent slice that counts, or 9.
fn part(slice: &mut [i64], length: usize) -> Result<&mut [i64], Refusal> {
    slice.get_mut(..length).ok_or(Refusal::whole(SHORT))
}

/// Refusal 17.
fn judge_starts(layout: &impl Layout, starts: &[u32]) -> Result<(), Refusal> {
    match layout.stray(starts) {
        Some(row) => Err(Refusal::at_index(STRAY, row)),
        None => Ok(()),
    }
}

/// Refusal 10 of P, A and the factor.
fn judge_lent(layout: &impl Layout, [p, a, factor]: [&[i64]; 3]) -> Result<(), Refusal> {
    if !layout.sums_bounded(p) || !layout.sums_bounded(a) || !layout.bounded(factor) {
        return Err(Refusal::whole(LENT));
    }
    Ok(())
}

/// The greatest magnitude of a carried residual.
const MAX_CARRIED: u64 = 1 << 33;

/// Refusal 10 of the carried residuals, those of fixed nodes too; of the tests of 10 it is the last.
fn judge_carried(carried: &[i64]) -> Result<(), Refusal> {
    let past = |residual: &i64| residual.unsigned_abs() > MAX_CARRIED;
    if carried.iter().any(past) {
        return Err(Refusal::whole(LENT));
    }
    Ok(())
}
