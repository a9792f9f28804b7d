//! Refusals 1 to 4: the trailer's counts, one card at its place, a whole table.

use crate::answer::*;
use crate::card::*;

/// The counts that a trailer tells, all within bounds.
#[derive(Clone, Copy)]
pub struct Counts {
    pub nodes: usize,
    pub materials: usize,
    pub elements: usize,
    pub loads: usize,
}

impl Counts {
    /// Of a Z card; None where the trailer is refused.
    pub fn of(trailer: &Card) -> Option<Counts> {
        let [letter, back, nodes, materials, elements, loads] = *trailer;
        let bounded = letter == Z
            && within(nodes, 3, MAX_NODES as u32)
            && within(materials, 1, MAX_MATERIALS as u32)
            && within(elements, 1, MAX_ELEMENTS as u32)
            && within(loads, 0, MAX_LOADS as u32);
        let counts = Counts {
            nodes: nodes as usize,
            materials: materials as usize,
            elements: elements as usize,
            loads: loads as usize,
        };
        (bounded && back as usize == counts.bytes_back()).then_some(counts)
    }

    /// Where the groups begin, as indices from D, which is 0.
    pub fn first_material(&self) -> usize {
        1 + self.nodes
    }

    pub fn first_element(&self) -> usize {
        self.first_material() + self.materials
    }

    pub fn last_element(&self) -> usize {
        self.first_load() - 1
    }

    pub fn first_load(&self) -> usize {
        self.first_element() + self.elements
    }

    /// The index of Z, which is also the number of cards before it.
    pub fn trailer(&self) -> usize {
        self.first_load() + self.loads
    }

    pub fn rows(&self) -> usize {
        self.trailer() + 1
    }

    pub fn bytes_back(&self) -> usize {
        CARD_BYTES * self.trailer()
    }
}

fn within(value: u32, least: u32, most: u32) -> bool {
    least <= value && value <= most
}

/// A letter that is one of the twelve, and nothing in the fields that it uses in no deck.
pub fn well_formed(card: &Card) -> bool {
    match fields_known(card) {
        Some(used) => card[1 + used..].iter().all(|&field| field == 0),
        None => false,
    }
}

/// Does a card of a table have a z or kz, as only in a solid deck it may? A 0 is none.
fn filled(card: &Card) -> bool {
    match card[0] {
        N => card[3] != 0,
        M => card[4] != 0,
        _ => false,
    }
}

/// How many cards there are so far of the kinds that have a most of their own.
#[derive(Clone, Copy)]
struct Seen {
    edges: usize,
    changes: usize,
}

/// May this letter stand at this index, after that letter and so many G and C cards?
fn allowed(counts: &Counts, index: usize, before: u32, seen: Seen, letter: u32) -> bool {
    if index == 0 {
        letter == D
    } else if index < counts.first_material() {
        letter == N
    } else if index < counts.first_element() {
        letter == M
    } else if index < counts.first_load() {
        letter == V || (letter == E && before != V)
    } else {
        match letter {
            H => before == E || before == V || before == H,
            F => ![G, R, T, C].contains(&before),
            G => ![R, T, C].contains(&before) && seen.edges < MAX_EDGES,
            R => ![T, C].contains(&before),
            T => before != C,
            C => seen.changes < MAX_CHANGES,
            _ => false,
        }
    }
}

/// Every field in its range; the letter is one that may stand before Z.
pub fn in_range(counts: &Counts, solid: bool, card: &Card) -> bool {
    let nodes = counts.nodes as u32;
    let materials = counts.materials as u32;
    let elements = counts.elements as u32;
    let [letter, a, b, c, d, e] = *card;
    match letter {
        D => within(a, 1, 60_000) && b <= TOP && within(c, 1, MAX_STEPS),
        N if solid => a <= 1_023 && b <= 1_023 && c <= 1_023,
        N => a <= 4_095 && b <= 4_095,
        M => {
            within(a, 1, 500_000)
                && within(b, 1, 500_000)
                && within(c, 1, 5_000)
                && (!solid || within(d, 1, 500_000))
                && e <= MAX_EMISSIVITY
        }
        E => {
            [a, b, c].iter().all(|&node| within(node, 1, nodes))
                && within(d, 1, materials)
                && within(e, 1, 4_000)
        }
        V => [a, b, c, d].iter().all(|&node| within(node, 1, nodes)) && within(e, 1, materials),
        H => within(a, 1, elements) && within(b, 1, 5_000_000),
        F => within(a, 1, elements) && within(b, 1, 100_000) && c <= TOP,
        G => {
            within(a, 1, nodes)
                && within(b, a + 1, nodes)
                && within(c, 1, 100_000)
                && d <= TOP
                && within(e, 1, 4_000)
        }
        R => within(a, 1, elements) && b <= TOP,
        T => within(a, 1, nodes) && b <= TOP,
        // Its key is asked with the cards before it.
        C => within(a, 1, MAX_STEPS) && turn(b).is_some() && d <= MAX_VALUE && e <= MAX_VALUE,
        _ => false,
    }
}

/// The place in the deck's order of a letter that a C may name.
fn turn(letter: u32) -> Option<usize> {
    [E, H, F, T].iter().position(|&named| named == letter)
}

/// In H, F, R and T the first field rises strictly within the group, in G the two nodes as a pair, in C the increment, the letter as
/// it stands in the deck and the key.
pub fn rising(before: &Card, card: &Card) -> bool {
    before[0] != card[0]
        || match card[0] {
            H | F | R | T => before[1] < card[1],
            G => before[1] < card[1] || (before[1] == card[1] && before[2] < card[2]),
            C => {
                let by = |card: &Card| (card[1], turn(card[2]), card[3]);
                by(before) < by(card)
            }
            _ => true,
        }
}

/// The cards before Z, one after another.
pub struct Turn {
    counts: Counts,
    solid: bool,
    index: usize,
    /// The card before it; of D, none.
    before: Card,
    /// The E cards so far.
    triangles: usize,
    /// The G and C cards so far.
    seen: Seen,
    /// The elements of H and of F and the nodes of T so far, each from 0.
    keys: Keys,
    /// z of the nodes so far: 0 in a flat deck.
    levels: [u32; MAX_NODES],
}

impl Turn {
    pub fn first(counts: Counts, solid: bool) -> Turn {
        Turn {
            counts,
            solid,
            index: 0,
            before: [0; 6],
            triangles: 0,
            seen: Seen {
                edges: 0,
                changes: 0,
            },
            keys: Keys::NONE,
            levels: [0; MAX_NODES],
        }
    }

    /// The next card: 3, then 4. `filled` says that it has a z or kz where the deck is flat, or an emissivity written as 0.
    pub fn judge(&mut self, card: &Card, filled: bool) -> Result<(), Refusal> {
        let (counts, index, before) = (&self.counts, self.index, &self.before);
        if !well_formed(card) || !allowed(counts, index, before[0], self.seen, card[0]) {
            return Err(Refusal::at_index(FORM, index));
        }
        if filled
            || !in_range(counts, self.solid, card)
            || !self.lies_well(card)
            || !rising(before, card)
        {
            return Err(Refusal::at_index(RANGE, index));
        }
        match card[0] {
            N => self.levels[index - 1] = card[3],
            E => self.triangles += 1,
            H => self.keys.heats[card[1] as usize - 1] = true,
            F => self.keys.films[card[1] as usize - 1] = true,
            T => self.keys.held[card[1] as usize - 1] = true,
            G => self.seen.edges += 1,
            C => self.seen.changes += 1,
            _ => {}
        }
        self.index += 1;
        self.before = *card;
        Ok(())
    }

    /// The nodes of an E, which are in range, lie at one z; the element of an F or an R is an E; there is a card that a C changes.
    fn lies_well(&self, card: &Card) -> bool {
        let level = |field: usize| self.levels[card[field] as usize - 1];
        match card[0] {
            E => level(1) == level(2) && level(1) == level(3),
            F | R => card[1] as usize <= self.triangles,
            C => self.has(card[2], card[3]),
            _ => true,
        }
    }

    /// Is there a card of that letter with that key among those so far? An E's key is its number as an element.
    fn has(&self, letter: u32, key: u32) -> bool {
        let Some(key) = (key as usize).checked_sub(1) else {
            return false;
        };
        let among = |keys: &[bool]| keys.get(key) == Some(&true);
        match letter {
            E => key < self.triangles,
            H => among(&self.keys.heats),
            F => among(&self.keys.films),
            T => among(&self.keys.held),
            _ => false,
        }
    }
}

/// Which elements have an H and an F and which nodes a T.
struct Keys {
    heats: [bool; MAX_ELEMENTS],
    films: [bool; MAX_ELEMENTS],
    held: [bool; MAX_NODES],
}

impl Keys {
    const NONE: Keys = Keys {
        heats: [false; MAX_ELEMENTS],
        films: [false; MAX_ELEMENTS],
        held: [false; MAX_NODES],
    };
}

/// What no replacement changes of a deck, beside its D and C cards; nor does one make it no deck.
#[derive(Clone, Copy)]
pub struct Shape {
    counts: Counts,
    solid: bool,
}

/// A table that has been judged.
#[derive(Clone, Copy)]
pub struct Deck<'a> {
    table: &'a [u32],
    pub counts: Counts,
    /// Its last element is a V.
    pub solid: bool,
}

impl<'a> Deck<'a> {
    pub fn judge(table: &'a [u32]) -> Result<Deck<'a>, Refusal> {
        if table.len() % 6 != 0 || table.len() < 12 || table.len() > 6 * MAX_ROWS {
            return Err(Refusal::whole(LENGTH));
        }
        let last = table.len() / 6 - 1;
        let counts = Counts::of(&card_of(table, last))
            .filter(|counts| counts.trailer() == last)
            .ok_or(Refusal::whole(TRAILER))?;
        let solid = table[6 * counts.last_element()] == V;
        let mut turn = Turn::first(counts, solid);
        for index in 0..last {
            let card = card_of(table, index);
            turn.judge(&card, !solid && filled(&card))?;
        }
        Ok(Deck {
            table,
            counts,
            solid,
        })
    }

    /// A table that was judged, as replacements have left it.
    pub fn shaped(table: &'a [u32], shape: Shape) -> Deck<'a> {
        let Shape { counts, solid } = shape;
        Deck {
            table,
            counts,
            solid,
        }
    }

    pub fn shape(&self) -> Shape {
        Shape {
            counts: self.counts,
            solid: self.solid,
        }
    }

    /// The card at an index, D being 0.
    pub fn card(&self, index: usize) -> Card {
        card_of(self.table, index)
    }

    pub fn cards(&self) -> impl Iterator<Item = Card> + 'a {
        let table = self.table;
        (0..table.len() / 6).map(move |index| card_of(table, index))
    }

    /// D's step in ms.
    pub fn milliseconds(&self) -> i64 {
        i64::from(self.card(0)[1])
    }

    /// D's number of steps.
    pub fn steps(&self) -> u32 {
        self.card(0)[3]
    }

    /// x, y and z of a node, counted from 0; z is 0 in a flat deck.
    pub fn point(&self, node: usize) -> [i64; 3] {
        let card = self.card(1 + node);
        [card[1], card[2], card[3]].map(i64::from)
    }

    /// kx, ky, the heat capacity and kz of a material, counted from 0; kz is 0 in a flat deck.
    pub fn material(&self, material: usize) -> [i64; 4] {
        let card = self.card(self.counts.first_material() + material);
        [card[1], card[2], card[3], card[4]].map(i64::from)
    }

    /// The emissivity of a material, counted from 0, in thousandths; 0 where it has none.
    pub fn emissivity(&self, material: usize) -> u32 {
        self.card(self.counts.first_material() + material)[EMISSIVITY]
    }

    /// The E or V card of an element, counted from 0.
    pub fn element(&self, element: usize) -> Card {
        self.card(self.counts.first_element() + element)
    }

    /// The number of E cards.
    pub fn triangles(&self) -> usize {
        let elements = self.cards().skip(self.counts.first_element());
        elements.take_while(|card| card[0] == E).count()
    }

    /// The H, F, G, R, T and C cards.
    pub fn loads(&self) -> impl Iterator<Item = Card> + 'a {
        let counts = self.counts;
        self.cards().skip(counts.first_load()).take(counts.loads)
    }

    /// The index of the first C card; of Z where there is none.
    pub fn first_change(&self) -> usize {
        let at = self.loads().position(|card| card[0] == C);
        at.map_or(self.counts.trailer(), |at| self.counts.first_load() + at)
    }

    /// The C card at an index, if it is one.
    pub fn change(&self, index: usize) -> Option<Card> {
        Some(self.card(index)).filter(|card| card[0] == C)
    }

    /// The number of the E, H, F or T card that a C changes, and that card with its new values.
    pub fn changed(&self, change: &Card) -> (u32, Card) {
        let [_, _, letter, key, first, second] = *change;
        let counts = &self.counts;
        let index = if letter == E {
            counts.first_element() + key as usize - 1
        } else {
            let named = |card: &Card| card[0] == letter && card[1] == key;
            let at = self.loads().position(|card| named(&card));
            counts.first_load() + at.expect("a judged C has its card")
        };
        let mut card = self.card(index);
        match letter {
            E => (card[4], card[5]) = (first, second),
            F => (card[2], card[3]) = (first, second),
            _ => card[2] = first,
        }
        (index as u32 + 1, card)
    }

    /// The temperature of each fixed node.
    pub fn fixed(&self) -> [Option<i64>; MAX_NODES] {
        let mut fixed = [None; MAX_NODES];
        for card in self.loads().filter(|card| card[0] == T) {
            fixed[card[1] as usize - 1] = Some(i64::from(card[2]));
        }
        fixed
    }
}

fn card_of(table: &[u32], index: usize) -> Card {
    let mut card = [0; 6];
    card.copy_from_slice(&table[6 * index..6 * index + 6]);
    card
}
