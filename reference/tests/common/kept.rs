//! Rows without their leading zeros, by the words of request [8]: first columns, starts, and the way from one form to the other.

use super::*;
use reference::kept;

/// The nodes that an element or an edge names, counted from 0; none of another card, or past 32 bits.
fn coupled(card: &[u32]) -> impl Iterator<Item = usize> + '_ {
    let count = match card[0] {
        V => 4,
        E => 3,
        G => 2,
        _ => 0,
    };
    let nodes = card.iter().skip(1).take(count);
    nodes.filter_map(|&node| (node as usize).checked_sub(1))
}

/// The first column of each row, from 0: the least node that shares an element or an edge with it, itself counted. Of what is no deck,
/// of at most 96 rows.
pub fn firsts(table: &[u32]) -> Vec<usize> {
    let nodes = match table.len() {
        0..=11 => 0,
        _ => nodes_of(table).min(96),
    };
    let shared = |row: usize| {
        let cards = table.chunks_exact(6);
        let sharing = cards.filter(move |card| coupled(card).any(|node| node == row));
        sharing.flat_map(coupled).min().unwrap_or(row)
    };
    (0..nodes).map(shared).collect()
}

/// The row starts, and after them the count of kept numbers.
fn begins(firsts: &[usize]) -> Vec<usize> {
    let mut begins = vec![0];
    for (row, first) in firsts.iter().enumerate() {
        begins.push(begins[row] + row + 1 - first);
    }
    begins
}

/// The row starts of a deck.
pub fn starts_of(table: &[u32]) -> Vec<u32> {
    let begins = begins(&firsts(table));
    begins[..begins.len() - 1]
        .iter()
        .map(|&start| start as u32)
        .collect()
}

/// The count of kept numbers of a deck.
pub fn kept_of(table: &[u32]) -> usize {
    begins(&firsts(table)).pop().expect("a first start")
}

/// Where the number of a row and a column not left of its first stands, both from 0.
pub fn kept_place(table: &[u32], row: usize, column: usize) -> usize {
    let firsts = firsts(table);
    begins(&firsts)[row] + column - firsts[row]
}

/// A kept slice as a packed one: `left` at the places left of each first column, and what is past the kept numbers past the triangle.
/// One that is so much too short is so much too short again.
pub fn expanded(firsts: &[usize], kept: &[i64], mut left: impl FnMut() -> i64) -> Vec<i64> {
    let mut packed = vec![];
    let length = begins(firsts).pop().expect("a first start");
    let mut numbers = kept.iter().copied().chain(std::iter::repeat(0));
    for (row, &first) in firsts.iter().enumerate() {
        packed.extend((0..first).map(|_| left()));
        packed.extend(numbers.by_ref().take(row + 1 - first));
    }
    match kept.get(length..) {
        Some(past) => packed.extend_from_slice(past),
        None => packed.truncate(packed.len() - (length - kept.len()).min(packed.len())),
    }
    packed
}

/// A packed slice of a whole triangle as a kept one; what is past the triangle is past the kept numbers.
pub fn shrunk(firsts: &[usize], packed: &[i64]) -> Vec<i64> {
    let mut kept = vec![];
    for (row, &first) in firsts.iter().enumerate() {
        kept.extend_from_slice(&packed[triangle(row) + first..triangle(row + 1)]);
    }
    kept.extend_from_slice(&packed[triangle(firsts.len())..]);
    kept
}

/// As `Lent`, of the kept form.
#[derive(Clone, Debug, PartialEq)]
pub struct KeptLent {
    pub table: Vec<u32>,
    pub p: Vec<i64>,
    pub a: Vec<i64>,
    pub factor: Vec<i64>,
    pub work: Vec<i64>,
    pub starts: Vec<u32>,
    pub temperatures: Vec<i64>,
    pub carried: Vec<i64>,
}

/// What starts hold before a build.
pub const NO_START: u32 = 0xDEAD_BEEF;

impl KeptLent {
    /// Every node at D's start, and nothing carried.
    pub fn new(table: Vec<u32>) -> KeptLent {
        let matrix = vec![MARK; kept_of(&table) + EXTRA];
        let Lent {
            table,
            temperatures,
            carried,
            ..
        } = Lent::new(table);
        KeptLent {
            p: matrix.clone(),
            a: matrix.clone(),
            factor: matrix.clone(),
            work: matrix,
            starts: vec![NO_START; nodes_of(&table) + EXTRA],
            temperatures,
            carried,
            table,
        }
    }

    pub fn built(table: Vec<u32>) -> KeptLent {
        let mut lent = KeptLent::new(table);
        assert_eq!(lent.build(), Answer::Done);
        lent
    }

    /// The kept form of what is lent in the packed one, with the deck's own starts.
    pub fn of(lent: &Lent) -> KeptLent {
        let firsts = firsts(&lent.table);
        let mut starts = starts_of(&lent.table);
        starts.extend([NO_START; EXTRA]);
        KeptLent {
            table: lent.table.clone(),
            p: shrunk(&firsts, &lent.p),
            a: shrunk(&firsts, &lent.a),
            factor: shrunk(&firsts, &lent.factor),
            work: shrunk(&firsts, &lent.work),
            starts,
            temperatures: lent.temperatures.clone(),
            carried: lent.carried.clone(),
        }
    }

    /// The packed form of it, zeros left of each first column.
    pub fn packed(&self) -> Lent {
        let firsts = firsts(&self.table);
        let expanded = |kept: &[i64]| expanded(&firsts, kept, || 0);
        Lent {
            table: self.table.clone(),
            p: expanded(&self.p),
            a: expanded(&self.a),
            factor: expanded(&self.factor),
            work: expanded(&self.work),
            temperatures: self.temperatures.clone(),
            carried: self.carried.clone(),
        }
    }

    pub fn build(&mut self) -> Answer {
        let KeptLent {
            p, a, factor, work, ..
        } = self;
        kept::build(&self.table, p, a, factor, work, &mut self.starts)
    }

    pub fn replace(&mut self, card: u32, new: Card) -> Answer {
        let KeptLent {
            table,
            p,
            a,
            factor,
            work,
            starts,
            ..
        } = self;
        kept::replace(table, p, a, factor, work, starts, card, new)
    }

    pub fn step(&mut self) -> Stepped {
        let (temperatures, carried) = (&mut self.temperatures, &mut self.carried);
        kept::step(
            &self.table,
            &self.p,
            &self.a,
            &self.factor,
            &self.starts,
            temperatures,
            carried,
        )
    }

    pub fn run(&mut self) -> Ran {
        let KeptLent {
            table,
            p,
            a,
            factor,
            work,
            starts,
            temperatures,
            carried,
        } = self;
        kept::run(table, p, a, factor, work, starts, temperatures, carried)
    }
}

impl Groups {
    /// The same board with its nodes in another order: node i + 1 becomes `order[i]`.
    pub fn numbered(&self, order: &[u32]) -> Groups {
        let new = |node: u32| order[node as usize - 1];
        let mut groups = self.clone();
        groups.levels.resize(self.nodes.len(), 0);
        for (old, &[x, y]) in self.nodes.iter().enumerate() {
            let at = order[old] as usize - 1;
            groups.nodes[at] = [x, y];
            groups.levels[at] = self.levels.get(old).copied().unwrap_or(0);
        }
        for card in &mut groups.elements {
            card[..3].iter_mut().for_each(|node| *node = new(*node));
        }
        for card in &mut groups.solids {
            card[..4].iter_mut().for_each(|node| *node = new(*node));
        }
        for card in &mut groups.edges {
            let ends = [new(card[0]), new(card[1])];
            (card[0], card[1]) = (ends[0].min(ends[1]), ends[0].max(ends[1]));
        }
        groups.edges.sort_by_key(|card| [card[0], card[1]]);
        for card in &mut groups.fixed {
            card[0] = new(card[0]);
        }
        groups.fixed.sort_by_key(|card| card[0]);
        for change in groups.changes.iter_mut().filter(|change| change[1] == T) {
            change[2] = new(change[2]);
        }
        groups.sort_changes();
        groups
    }

    /// The same board numbered by chance: few of its numbers are left out.
    pub fn shuffled(&self, chance: &mut Chance) -> Groups {
        let mut order: Vec<u32> = (1..=self.nodes.len() as u32).collect();
        for at in 1..order.len() {
            order.swap(at, chance.index(at + 1));
        }
        self.numbered(&order)
    }

    /// A sheet numbered along its shorter way, as few of its numbers kept as there can be.
    pub fn strip(chance: &mut Chance, long: u32, short: u32) -> Groups {
        Groups::sheet(chance, short, long)
    }

    /// A fan about node 1, which shares an element with every other: no row leaves a number out.
    pub fn fan(chance: &mut Chance, nodes: u32) -> Groups {
        let mut groups = Groups::base();
        groups.d = [1_000, 19_660_800, chance.within(1, 5)];
        groups.nodes = vec![[100, 100]];
        // Round a square, as even as the count allows.
        for at in 0..nodes - 1 {
            let along = at * 800 / (nodes - 1);
            groups.nodes.push(match along / 200 {
                0 => [along, 0],
                1 => [200, along - 200],
                2 => [600 - along, 200],
                _ => [0, 800 - along],
            });
        }
        groups.elements = (2..nodes)
            .map(|node| [1, node, node + 1, 1, 1_000])
            .collect();
        groups.elements.push([nodes, 2, 1, 1, 1_000]);
        groups.load(chance);
        groups
    }

    /// One element at three nodes, or by a G at its first two, and no other card that couples: all other rows are a diagonal alone,
    /// and held.
    pub fn lone(nodes: u32, corners: [u32; 3], edge: bool) -> Groups {
        let mut groups = Groups::base();
        groups.nodes = (0..nodes).map(|node| [node, 300]).collect();
        for (corner, point) in corners.iter().zip([[0, 0], [100, 0], [0, 100]]) {
            groups.nodes[*corner as usize - 1] = point;
        }
        groups.elements = vec![[corners[0], corners[1], corners[2], 1, 1_000]];
        groups.heats.push([1, 500]);
        if edge {
            let (low, high) = (corners[0].min(corners[1]), corners[0].max(corners[1]));
            groups.edges.push([low, high, 60_000, 19_660_000, 4_000]);
        }
        let alone = (1..=nodes).filter(|node| !corners.contains(node));
        groups.fixed = alone.map(|node| [node, 19_660_800 + node]).collect();
        groups
    }
}
