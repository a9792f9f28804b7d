//! Decks, buffers and chance for the tests.
#![allow(dead_code, unused_imports)]

mod changes;
mod kept;
mod records;
mod refusing;

pub use changes::*;
pub use kept::*;
pub use records::*;
use reference::{Answer, Card, Ran, Refusal, Stepped};
pub use refusing::*;

pub const D: u32 = b'D' as u32;
pub const N: u32 = b'N' as u32;
pub const M: u32 = b'M' as u32;
pub const E: u32 = b'E' as u32;
pub const V: u32 = b'V' as u32;
pub const H: u32 = b'H' as u32;
pub const F: u32 = b'F' as u32;
pub const G: u32 = b'G' as u32;
pub const R: u32 = b'R' as u32;
pub const T: u32 = b'T' as u32;
pub const C: u32 = b'C' as u32;
pub const Z: u32 = b'Z' as u32;
pub const TOP: u32 = 33_554_432;
/// The greatest magnitude of a carried residual.
pub const MOST_CARRIED: i64 = 1 << 33;

/// Acceptance, 0, and each refusal; 15 and 16 are of records alone.
pub const NUMBERS: usize = 18;

/// Xorshift, 64 bits.
pub struct Chance(u64);

impl Chance {
    pub fn seeded(seed: u64) -> Chance {
        Chance(seed.wrapping_mul(0x9E37_79B9_7F4A_7C15) | 1)
    }

    pub fn bits(&mut self) -> u64 {
        self.0 ^= self.0 << 13;
        self.0 ^= self.0 >> 7;
        self.0 ^= self.0 << 17;
        self.0
    }

    /// least..=most
    pub fn within(&mut self, least: u32, most: u32) -> u32 {
        least + ((self.bits() >> 16) % (u64::from(most - least) + 1)) as u32
    }

    pub fn index(&mut self, length: usize) -> usize {
        self.within(0, length as u32 - 1) as usize
    }

    /// True one time in `times`.
    pub fn one_in(&mut self, times: u32) -> bool {
        self.within(1, times) == 1
    }

    pub fn pick<A: Copy>(&mut self, list: &[A]) -> A {
        list[self.index(list.len())]
    }

    /// Small, large, and both ends.
    pub fn signed(&mut self) -> i64 {
        let bits = self.bits() as i64;
        match self.within(0, 5) {
            0 => self.pick(&[i64::MIN, i64::MIN + 1, i64::MAX, i64::MAX - 1, 0, 1, -1]),
            1 => bits,
            _ => bits >> self.within(20, 63),
        }
    }

    /// So many carried residuals: all zero, or of every size up to 2^33 and both its ends; seldom one past it.
    pub fn residuals(&mut self, length: usize) -> Vec<i64> {
        let mut residuals = vec![0; length];
        if self.one_in(4) {
            return residuals;
        }
        let size = self.within(30, 63);
        for residual in &mut residuals {
            *residual = match self.within(0, 9) {
                0 => self.pick(&[0, 1, -1, MOST_CARRIED, -MOST_CARRIED]),
                _ => self.bits() as i64 >> size,
            };
        }
        if length > 0 && self.one_in(12) {
            let at = self.index(length);
            residuals[at] = self.past_carried();
        }
        residuals
    }

    /// A number that no residual may be.
    pub fn past_carried(&mut self) -> i64 {
        let near = [MOST_CARRIED + 1, -MOST_CARRIED - 1];
        match self.within(0, 2) {
            0 => self.pick(&[i64::MIN, i64::MIN + 1, i64::MAX]),
            _ => self.pick(&near),
        }
    }

    pub fn unsigned(&mut self) -> u32 {
        let bits = self.bits() as u32;
        match self.within(0, 5) {
            0 => self.pick(&[0, 1, u32::MAX, u32::MAX - 1, TOP, TOP + 1, 1 << 31]),
            1 => bits,
            _ => bits >> self.within(8, 31),
        }
    }
}

/// A deck by its groups; the trailer comes with `table`.
#[derive(Clone)]
pub struct Groups {
    pub d: [u32; 3],
    pub nodes: Vec<[u32; 2]>,
    /// z of each node; 0 of those past its end.
    pub levels: Vec<u32>,
    pub materials: Vec<[u32; 3]>,
    /// kz of each material; 0 of those past its end.
    pub upward: Vec<u32>,
    /// The emissivity of each material; blank of those past its end.
    pub emissivities: Vec<u32>,
    pub elements: Vec<[u32; 5]>,
    pub solids: Vec<[u32; 5]>,
    pub heats: Vec<[u32; 2]>,
    pub films: Vec<[u32; 3]>,
    pub edges: Vec<[u32; 5]>,
    /// Triangle and temperature of each R card.
    pub sources: Vec<[u32; 2]>,
    pub fixed: Vec<[u32; 2]>,
    /// Increment, letter, key and both new values; the second is 0 of an H and a T.
    pub changes: Vec<[u32; 5]>,
}

impl Groups {
    /// The paper's base, without loads.
    pub fn base() -> Groups {
        Groups {
            d: [1_000, 19_660_800, 1],
            nodes: vec![[0, 0], [100, 0], [0, 100]],
            levels: vec![],
            materials: vec![[1_000, 1_000, 2_400]],
            upward: vec![],
            emissivities: vec![],
            elements: vec![[1, 2, 3, 1, 1_000]],
            solids: vec![],
            heats: vec![],
            films: vec![],
            edges: vec![],
            sources: vec![],
            fixed: vec![],
            changes: vec![],
        }
    }

    /// The base with a card of every kind: D, three N, M, E, H, F, G, T, Z.
    pub fn one_of_each() -> Groups {
        let mut groups = Groups::base();
        groups.heats.push([1, 3]);
        groups.films.push([1, 480, 19_660_800]);
        groups.edges.push([1, 2, 1_800, 19_660_800, 1_000]);
        groups.fixed.push([3, 19_000_000]);
        groups
    }

    /// As hard to factor as the paper's P9, and not thin: 64·S is 19,200, the longest side's square 10,825. The side across from
    /// node 1 is short, 5 long, so that d(1) is small beside w(2,1): l(2,1) is over 17·2^20, past 2^24.
    pub fn leaning() -> Groups {
        Groups {
            nodes: vec![[0, 0], [100, 0], [104, 3]],
            materials: vec![[10_000, 10_000, 1]],
            ..Groups::base()
        }
    }

    /// One triangle with heat, film and an edge, and so much capacity that it builds, however narrow, where it is not thin:
    /// D, three N, two M, E, H, F, G, Z.
    pub fn narrow(points: [[u32; 2]; 3]) -> Groups {
        Groups {
            // u is 1,666 to 600,000, and no pair above 128·(kx + ky).
            d: [(area(points) / 100).clamp(1, 60_000) as u32, 19_660_800, 1],
            nodes: points.to_vec(),
            materials: vec![[1, 1, 5_000], [2, 3, 4_000]],
            elements: vec![[1, 2, 3, 1, 4_000]],
            heats: vec![[1, 3]],
            films: vec![[1, 480, 19_660_800]],
            edges: vec![[1, 2, 1_800, 19_660_800, 1_000]],
            ..Groups::base()
        }
    }

    /// The request's tetrahedron: D, four N, M, V, Z.
    pub fn corner() -> Groups {
        Groups {
            nodes: vec![[0, 0], [100, 0], [0, 100], [0, 0]],
            levels: vec![0, 0, 0, 100],
            upward: vec![1_000],
            elements: vec![],
            solids: vec![[1, 2, 3, 4, 1]],
            ..Groups::base()
        }
    }

    /// That with a card of every kind: D, four N, M, E, V, H on the V, F on the E, an upright G, T, Z.
    pub fn one_of_each_solid() -> Groups {
        Groups {
            elements: vec![[1, 2, 3, 1, 1_000]],
            heats: vec![[2, 3]],
            films: vec![[1, 480, 19_660_800]],
            edges: vec![[1, 4, 1_800, 19_660_800, 1_000]],
            fixed: vec![[3, 19_000_000]],
            ..Groups::corner()
        }
    }

    /// That with a second V, of a fifth node, and a second material.
    pub fn two_solids() -> Groups {
        let mut groups = Groups::one_of_each_solid();
        groups.nodes.push([100, 100]);
        groups.levels.push(100);
        groups.materials.push([2_000, 3_000, 1_200]);
        groups.upward.push(4_000);
        groups.solids.push([5, 3, 2, 4, 1]);
        groups
    }

    /// One of each, its elements E, V and E: the V's fields are right, and the E after it stands where it may not.
    pub fn solid_among_triangles() -> Vec<u32> {
        let mut groups = Groups::one_of_each_solid();
        groups.elements = vec![[1, 2, 3, 1, 9], [1, 2, 3, 1, 1], [3, 2, 1, 1, 9]];
        with(&groups.table(), row::TRIANGLE + 1, 0, V)
    }

    /// One of each with V before E, and no z or kz: flat by its last element.
    pub fn turned_flat() -> Vec<u32> {
        let mut groups = Groups::one_of_each_solid();
        (groups.levels, groups.upward) = (vec![], vec![]);
        swapped(&groups.table(), row::TRIANGLE, row::SOLID)
    }

    /// A V whose edges are (200, 0, 0), (0, 200, 0) and (0, 0, height), over a step of 1 ms: u is 125/3 capacity·height. With ones
    /// its S is one more: (200, 1, 0), (0, 200, 1) and (1, 0, height).
    pub fn full(capacity: u32, height: u32, ones: u32) -> Groups {
        let mut groups = Groups::corner();
        groups.d[0] = 1;
        groups.materials[0][2] = capacity;
        groups.nodes = vec![[0, 0], [200, ones], [0, 200], [ones, 0]];
        groups.levels = vec![0, 0, ones, height];
        groups
    }

    /// As P8, of a V: capacity 1, a step of a minute.
    pub fn slow() -> Groups {
        let mut groups = Groups::corner();
        (groups.d[0], groups.materials[0][2]) = (60_000, 1);
        groups
    }

    pub fn table(&self) -> Vec<u32> {
        let mut table = card(D, &self.d).to_vec();
        let past = |list: &[u32], at: usize| list.get(at).copied().unwrap_or(0);
        for (at, &[x, y]) in self.nodes.iter().enumerate() {
            table.extend(card(N, &[x, y, past(&self.levels, at)]));
        }
        for (at, &[kx, ky, capacity]) in self.materials.iter().enumerate() {
            let kz = past(&self.upward, at);
            let emissivity = past(&self.emissivities, at);
            table.extend(card(M, &[kx, ky, capacity, kz, emissivity]));
        }
        self.elements
            .iter()
            .for_each(|fields| table.extend(card(E, fields)));
        self.solids
            .iter()
            .for_each(|fields| table.extend(card(V, fields)));
        self.heats
            .iter()
            .for_each(|fields| table.extend(card(H, fields)));
        self.films
            .iter()
            .for_each(|fields| table.extend(card(F, fields)));
        self.edges
            .iter()
            .for_each(|fields| table.extend(card(G, fields)));
        self.sources
            .iter()
            .for_each(|fields| table.extend(card(R, fields)));
        self.fixed
            .iter()
            .for_each(|fields| table.extend(card(T, fields)));
        self.changes
            .iter()
            .for_each(|fields| table.extend(card(C, fields)));
        let loads = self.heats.len() + self.films.len() + self.edges.len() + self.fixed.len();
        let loads = loads + self.sources.len() + self.changes.len();
        let counts = [
            self.nodes.len(),
            self.materials.len(),
            self.elements.len() + self.solids.len(),
            loads,
        ];
        let back = 42 * (table.len() / 6);
        table.extend([Z, back as u32]);
        table.extend(counts.map(|count| count as u32));
        table
    }

    /// A sheet of columns by rows nodes, each cell cut in two, that builds: materials
    /// and thickness of a circuit board, steps near a second, spacing near 3 mm.
    pub fn sheet(chance: &mut Chance, columns: u32, rows: u32) -> Groups {
        let (dx, dy) = (chance.within(40, 80), chance.within(40, 80));
        let mut nodes = vec![];
        for y in 0..rows {
            for x in 0..columns {
                nodes.push([x * dx + chance.within(0, 10), y * dy + chance.within(0, 10)]);
            }
        }
        let materials: Vec<[u32; 3]> = (0..chance.within(1, 8))
            .map(|_| {
                [
                    chance.within(300, 20_000),
                    chance.within(300, 20_000),
                    chance.within(1_000, 5_000),
                ]
            })
            .collect();
        let mut elements = vec![];
        for y in 0..rows - 1 {
            for x in 0..columns - 1 {
                let corner = y * columns + x + 1;
                for [i, j, k] in [
                    [corner, corner + 1, corner + columns],
                    [corner + columns + 1, corner + 1, corner + columns],
                ] {
                    let material = chance.within(1, materials.len() as u32);
                    let thickness = chance.within(800, 2_000);
                    let corners = chance.pick(&[[i, j, k], [j, k, i], [k, j, i], [i, k, j]]);
                    elements.push([corners[0], corners[1], corners[2], material, thickness]);
                }
            }
        }
        let mut groups = Groups {
            d: [
                chance.within(500, 2_000),
                chance.within(15_000_000, 25_000_000),
                chance.within(1, 20),
            ],
            nodes,
            materials,
            elements,
            ..Groups::base()
        };
        groups.load(chance);
        groups.rim(chance, columns, rows);
        groups
    }

    /// A block of columns by rows by floors nodes, each cell cut in five, with triangles over some of its top; it builds.
    pub fn block(chance: &mut Chance, columns: u32, rows: u32, floors: u32) -> Groups {
        let sides = [0; 3].map(|_| chance.within(30, 60));
        let mut groups = Groups {
            d: [
                chance.within(100, 1_000),
                chance.within(15_000_000, 25_000_000),
                chance.within(1, 20),
            ],
            nodes: vec![],
            materials: vec![],
            elements: vec![],
            ..Groups::base()
        };
        let aslant = chance.one_in(2);
        for floor in 0..floors {
            for row in 0..rows {
                for column in 0..columns {
                    let [x, y, z] = [(column, 0), (row, 1), (floor, 2)]
                        .map(|(at, axis)| at * sides[axis] + chance.within(0, 8));
                    groups.nodes.push([x, y]);
                    // The triangles lie level, on top.
                    let level = floor * sides[2] + if floor + 1 < floors { 0 } else { 8 };
                    let bent = aslant && floor + 1 < floors;
                    groups.levels.push(if bent { z } else { level });
                }
            }
        }
        for _ in 0..chance.within(1, 8) {
            let [kx, ky, kz] = [0; 3].map(|_| chance.within(300, 20_000));
            groups.materials.push([kx, ky, chance.within(1_000, 5_000)]);
            groups.upward.push(kz);
        }
        groups.cells(chance, columns, rows, floors);
        groups.load(chance);
        groups.beams(chance, columns, rows, floors);
        groups
    }

    /// The cells of a block, each with four tetrahedra about a fifth, turned so that neighbours meet face to face; and the
    /// triangles of the top, as far as there is room for them.
    fn cells(&mut self, chance: &mut Chance, columns: u32, rows: u32, floors: u32) {
        let lid = chance.one_in(2);
        for (floor, row, column) in grid(floors - 1, rows - 1, columns - 1) {
            let [a, b, c, d, e, f, g, h] = [
                (0, 0, 0),
                (1, 0, 0),
                (1, 1, 0),
                (0, 1, 0),
                (0, 0, 1),
                (1, 0, 1),
                (1, 1, 1),
                (0, 1, 1),
            ]
            .map(|(x, y, z)| ((floor + z) * rows + row + y) * columns + column + x + 1);
            let even = (floor + row + column) % 2 == 0;
            let cut = if even {
                [
                    [b, d, e, g],
                    [a, b, d, e],
                    [c, b, d, g],
                    [f, b, e, g],
                    [h, d, e, g],
                ]
            } else {
                [
                    [a, c, f, h],
                    [b, a, c, f],
                    [d, a, c, h],
                    [e, a, f, h],
                    [g, c, f, h],
                ]
            };
            for corners in cut {
                let [i, j, k, l] = shuffled(chance, corners);
                let material = chance.within(1, self.materials.len() as u32);
                self.solids.push([i, j, k, l, material]);
            }
            let top = if even {
                [[e, f, g], [e, g, h]]
            } else {
                [[f, g, h], [f, h, e]]
            };
            for corners in top.into_iter().filter(|_| lid && floor + 2 == floors) {
                let [i, j, k] = shuffled(chance, corners);
                let material = chance.within(1, self.materials.len() as u32);
                let thickness = chance.within(20, 2_000);
                self.elements.push([i, j, k, material, thickness]);
            }
        }
        self.solids.truncate(160);
        self.elements.truncate(160 - self.solids.len());
    }

    /// Edge films by chance, along the block's lines, upright ones too.
    fn beams(&mut self, chance: &mut Chance, columns: u32, rows: u32, floors: u32) {
        let often = chance.pick(&[1, 3, 10, 1_000]);
        for (floor, row, column) in grid(floors, rows, columns) {
            let low = (floor * rows + row) * columns + column + 1;
            let lines = [
                (column + 1 < columns, 1),
                (row + 1 < rows, columns),
                (floor + 1 < floors, columns * rows),
            ];
            for (_, on) in lines.into_iter().filter(|&(inside, _)| inside) {
                if chance.one_in(often) {
                    let ambient = chance.within(15_000_000, 25_000_000);
                    let [film, thickness] =
                        [(1, 100_000), (1, 4_000)].map(|(least, most)| chance.within(least, most));
                    self.edges.push([low, low + on, film, ambient, thickness]);
                }
            }
        }
        self.edges.truncate(160);
    }

    /// Loads by chance.
    fn load(&mut self, chance: &mut Chance) {
        let triangles = self.elements.len() as u32;
        for element in 1..=triangles + self.solids.len() as u32 {
            if chance.one_in(4) {
                self.heats.push([element, chance.within(1, 500_000)]);
            }
            if element <= triangles && chance.one_in(3) {
                self.films.push([
                    element,
                    chance.within(1, 100_000),
                    chance.within(15_000_000, 25_000_000),
                ]);
            }
        }
        for node in 1..=self.nodes.len() as u32 {
            if chance.one_in(6) {
                self.fixed
                    .push([node, chance.within(15_000_000, 25_000_000)]);
            }
        }
    }

    /// Radiation by chance: emissivities, one of them blank now and then, and sources on none, some or all triangles.
    pub fn dock(&mut self, chance: &mut Chance) {
        let often = chance.pick(&[1, 3, 1_000]);
        self.emissivities = (0..self.materials.len())
            .map(|_| chance.pick(&[0, 1, 350, 900, 1_000]))
            .collect();
        for element in 1..=self.elements.len() as u32 {
            if chance.one_in(often) {
                let near = chance.within(15_000_000, 25_000_000);
                self.sources
                    .push([element, chance.pick(&[0, near, near, TOP])]);
            }
        }
    }

    /// Edge films by chance, on the sheet's rim and on some sides inside of it.
    fn rim(&mut self, chance: &mut Chance, columns: u32, rows: u32) {
        let mut sides = vec![];
        for y in 0..rows {
            for x in 0..columns {
                let node = y * columns + x + 1;
                let across = (x + 1 < columns).then_some((node, node + 1, y == 0 || y + 1 == rows));
                let up =
                    (y + 1 < rows).then_some((node, node + columns, x == 0 || x + 1 == columns));
                sides.extend(across.into_iter().chain(up));
            }
        }
        let often = chance.pick(&[1, 2, 5, 1_000]);
        for (low, high, outside) in sides {
            if chance.one_in(often * if outside { 1 } else { 6 }) {
                let ambient = chance.within(15_000_000, 25_000_000);
                let fields = [chance.within(1, 100_000), ambient, chance.within(1, 4_000)];
                self.edges
                    .push([low, high, fields[0], fields[1], fields[2]]);
            }
        }
        self.edges.truncate(160);
    }

    /// As many cards of every kind as a deck may have: 96 nodes, 160 elements with heat and film on each, 160 edges,
    /// every node held, and 64 changes. It builds.
    pub fn largest(chance: &mut Chance) -> Groups {
        let mut groups = Groups::sheet(chance, 12, 8);
        let again: Vec<[u32; 5]> = groups.elements[..6].to_vec();
        groups.elements.extend(again);
        groups.fill(chance, 160, &[1, 12]);
        groups.change_most();
        groups
    }

    /// As many cards of every kind as a solid deck may have of 96 nodes: 160 elements with heat on each, ten of them triangles with
    /// a film, 160 edges, every node held, and 64 changes. It builds.
    pub fn largest_block(chance: &mut Chance) -> Groups {
        let mut groups = Groups::block(chance, 16, 3, 2);
        while groups.elements.len() < 10 {
            let at = 49 + groups.elements.len() as u32;
            groups.elements.push([at, at + 1, at + 16, 1, 1_000]);
        }
        groups.elements.truncate(10);
        groups.fill(chance, 10, &[1, 16, 48]);
        groups.change_most();
        groups
    }

    /// The materials and loads of a largest deck: films on the first elements, edges from each node to those so far on.
    fn fill(&mut self, chance: &mut Chance, films: u32, far: &[u32]) {
        self.materials.resize(8, self.materials[0]);
        if !self.solids.is_empty() {
            self.upward.resize(8, 1_000);
        }
        let ambient = 19_660_800;
        self.heats = (1..=160)
            .map(|element| [element, 1_000 + element])
            .collect();
        self.films = (1..=films)
            .map(|element| [element, 5_000 + element, ambient])
            .collect();
        self.emissivities = vec![900; 8];
        self.sources = (1..=films)
            .map(|element| [element, ambient + 65_536 * element])
            .collect();
        self.fixed = (1..=96).map(|node| [node, ambient + node]).collect();
        let pairs = (1..96).flat_map(|low| far.iter().map(move |on| (low, low + on)));
        self.edges = pairs
            .filter(|&(_, high)| high <= 96)
            .take(160)
            .map(|(low, high)| [low, high, chance.within(1, 100_000), ambient, 1_000])
            .collect();
    }

    /// Like the paper's P9: two long narrow elements of little capacity, hard to factor, and thin one time in two.
    pub fn slivers(chance: &mut Chance) -> Groups {
        let long = long(chance);
        let k = chance.within(1_000, 20_000);
        let mut groups = Groups::base();
        groups.nodes = vec![
            [0, 2],
            [long, 2],
            [long + chance.within(0, 3), 3],
            [long, chance.within(0, 1)],
        ];
        groups.materials = vec![[k, k, chance.within(1, 200)]];
        groups.elements = vec![[1, 2, 3, 1, 1_000], [4, 2, 1, 1, chance.within(1, 1_000)]];
        groups.film(chance);
        groups.tie(chance);
        groups
    }

    /// A weak film on the first triangle, one time in two.
    fn film(&mut self, chance: &mut Chance) {
        if chance.one_in(2) {
            self.films.push([1, chance.within(1, 1_000), 20_000_000]);
        }
    }

    /// Two long narrow tetrahedra of little capacity, hard to factor.
    pub fn needles(chance: &mut Chance) -> Groups {
        let long = long(chance);
        let k = chance.within(1_000, 20_000);
        let mut groups = Groups::corner();
        groups.nodes = vec![
            [0, 2],
            [long, 2],
            [long + chance.within(0, 3), 3],
            [long, chance.within(0, 2)],
            [long, 4],
        ];
        groups.levels = vec![1, 1, 1, chance.within(2, 3), 1];
        groups.materials = vec![[k, k, chance.within(1, 5_000)]];
        groups.upward = vec![k];
        groups.solids = vec![[1, 2, 3, 4, 1], [5, 4, 2, 1, 1]];
        if chance.one_in(2) {
            groups.elements = vec![[1, 2, 3, 1, chance.within(1, 1_000)]];
            groups.film(chance);
        }
        groups.tie(chance);
        groups
    }

    /// An edge from the first node one time in two, a node held one time in three.
    fn tie(&mut self, chance: &mut Chance) {
        let nodes = self.nodes.len() as u32;
        if chance.one_in(2) {
            let (high, film) = (chance.within(2, nodes), chance.within(1, 1_000));
            self.edges.push([1, high, film, 20_000_000, 1_000]);
        }
        if chance.one_in(3) {
            self.fixed.push([chance.within(1, nodes), 20_000_000]);
        }
    }

    /// Any accepted cards: elements may be flat, stiff or far apart, and every field at its ends. One deck in three is solid.
    pub fn wild(chance: &mut Chance) -> Groups {
        let solid = chance.one_in(3);
        Groups::wild_of(chance, solid)
    }

    pub fn wild_of(chance: &mut Chance, solid: bool) -> Groups {
        let end = |chance: &mut Chance, least: u32, most: u32| match chance.within(0, 4) {
            0 => least,
            1 => most,
            _ => {
                let most = least + (most - least) / chance.pick(&[1, 1, 10, 1_000]);
                chance.within(least, most)
            }
        };
        let far = if solid { 1_023 } else { 4_095 };
        let nodes = chance.within(3, 9);
        let materials = chance.within(1, 3);
        let elements = chance.within(1, 12);
        let mut groups = Groups {
            d: [
                end(chance, 1, 60_000),
                end(chance, 0, TOP),
                chance.within(1, 3),
            ],
            nodes: (0..nodes)
                .map(|_| [end(chance, 0, far), end(chance, 0, far)])
                .collect(),
            materials: (0..materials)
                .map(|_| {
                    [
                        end(chance, 1, 500_000),
                        end(chance, 1, 500_000),
                        end(chance, 1, 5_000),
                    ]
                })
                .collect(),
            elements: (0..elements)
                .map(|_| {
                    let corners = [0; 3].map(|_| chance.within(1, nodes));
                    let material = chance.within(1, materials);
                    [
                        corners[0],
                        corners[1],
                        corners[2],
                        material,
                        end(chance, 1, 4_000),
                    ]
                })
                .collect(),
            ..Groups::base()
        };
        if solid {
            let levels = [0; 2].map(|_| end(chance, 0, far));
            groups.levels = (0..nodes)
                .map(|_| match chance.one_in(3) {
                    true => end(chance, 0, far),
                    false => chance.pick(&levels),
                })
                .collect();
            groups.upward = (0..materials).map(|_| end(chance, 1, 500_000)).collect();
            let corners = |chance: &mut Chance| [0; 4].map(|_| chance.within(1, nodes));
            groups.solids = (0..chance.within(1, 8))
                .map(|_| {
                    let [i, j, k, l] = corners(chance);
                    [i, j, k, l, chance.within(1, materials)]
                })
                .collect();
            // Only those that lie level, and often none.
            let level = |node: u32| groups.levels[node as usize - 1];
            let some = chance.one_in(2);
            groups
                .elements
                .retain(|e| some && level(e[0]) == level(e[1]) && level(e[0]) == level(e[2]));
        }
        let triangles = groups.elements.len() as u32;
        for element in 1..=triangles + groups.solids.len() as u32 {
            if chance.one_in(3) {
                groups.heats.push([element, end(chance, 1, 5_000_000)]);
            }
            if element <= triangles && chance.one_in(3) {
                groups
                    .films
                    .push([element, end(chance, 1, 100_000), end(chance, 0, TOP)]);
            }
        }
        // Two nodes at one point, one time in some: an edge of no length.
        if chance.one_in(8) {
            groups.nodes[1] = groups.nodes[0];
            if solid && groups.elements.is_empty() {
                groups.levels[1] = groups.levels[0];
            }
        }
        for low in 1..nodes {
            for high in low + 1..=nodes {
                if chance.one_in(6) {
                    let film = end(chance, 1, 100_000);
                    let ambient = end(chance, 0, TOP);
                    groups
                        .edges
                        .push([low, high, film, ambient, end(chance, 1, 4_000)]);
                }
            }
        }
        for node in 1..=nodes {
            if chance.one_in(3) {
                groups.fixed.push([node, end(chance, 0, TOP)]);
            }
        }
        groups
    }
}

/// How long a narrow triangle is: with a height of 1 it is not yet thin up to 57, and thin from 64 on.
fn long(chance: &mut Chance) -> u32 {
    match chance.one_in(2) {
        true => chance.within(36, 57),
        false => chance.within(58, 200),
    }
}

/// All places of so many floors, rows and columns, as nodes are numbered.
fn grid(floors: u32, rows: u32, columns: u32) -> impl Iterator<Item = (u32, u32, u32)> {
    (0..floors * rows * columns)
        .map(move |at| (at / (rows * columns), at / columns % rows, at % columns))
}

/// Any order of corners.
fn shuffled<const K: usize>(chance: &mut Chance, mut corners: [u32; K]) -> [u32; K] {
    for at in 1..K {
        corners.swap(at, chance.index(at + 1));
    }
    corners
}

/// S.
pub fn area([p, q, r]: [[u32; 2]; 3]) -> u64 {
    let side = |to: [u32; 2], axis: usize| i64::from(to[axis]) - i64::from(p[axis]);
    (side(q, 0) * side(r, 1) - side(r, 0) * side(q, 1)).unsigned_abs()
}

/// The squares of the three sides, the longest last.
pub fn squares([p, q, r]: [[u32; 2]; 3]) -> [u64; 3] {
    let mut squares = [[p, q], [q, r], [r, p]].map(|[from, to]| {
        let way = |axis: usize| u64::from(from[axis].abs_diff(to[axis]));
        way(0) * way(0) + way(1) * way(1)
    });
    squares.sort_unstable();
    squares
}

/// The longest sides of triangles that are tried about the limit of thinness, by their ways along x and y: one whose square is
/// 64·S and one more, one whose square is three less, some whose squares are 64·S, and of every length. No square is one or two less
/// than a 64·S: no two squares sum to 3 mod 4 or to 6 mod 8.
pub const SIDES: [(u32, u32); 16] = [
    (8, 1),
    (6, 5),
    (32, 32),
    (64, 0),
    (64, 64),
    (9, 0),
    (12, 1),
    (63, 1),
    (64, 1),
    (65, 0),
    (100, 1),
    (1_000, 999),
    (4_064, 4_064),
    (4_095, 0),
    (4_095, 4_094),
    (4_095, 4_095),
];

/// Of the triangles with that longest side the largest that is thin, where there is one, and the least that is not.
pub fn about_thin(side: (u32, u32)) -> (Option<[[u32; 2]; 3]>, [[u32; 2]; 3]) {
    let square = u64::from(side.0).pow(2) + u64::from(side.1).pow(2);
    let limit = square.div_ceil(64);
    let thin = (1..limit).rev().find_map(|s| beside(side, s));
    let fair = (limit..).find_map(|s| beside(side, s));
    (thin, fair.expect("a triangle that is not thin"))
}

/// A triangle with that longest side, not upright, and that S; none where the grid has no third point for it.
fn beside((a, b): (u32, u32), s: u64) -> Option<[[u32; 2]; 3]> {
    let (wide, high) = (u64::from(a), u64::from(b));
    (0..=wide)
        .filter(|x| (s + high * x) % wide == 0)
        .map(|x| [x as u32, ((s + high * x) / wide) as u32])
        .map(|third| [[0, 0], [a, b], third])
        .find(|&points| points[2][1] <= 4_095 && squares(points)[2] == wide * wide + high * high)
}

/// The three corners in every order: each side of them first, second and last, either way round.
pub fn turned([p, q, r]: [[u32; 2]; 3]) -> [[[u32; 2]; 3]; 6] {
    [
        [p, q, r],
        [q, r, p],
        [r, p, q],
        [r, q, p],
        [q, p, r],
        [p, r, q],
    ]
}

/// Rows of `one_of_each_solid`.
pub mod row {
    pub const NODE: usize = 1;
    pub const MATERIAL: usize = 5;
    pub const TRIANGLE: usize = 6;
    pub const SOLID: usize = 7;
    pub const HEAT: usize = 8;
    pub const FILM: usize = 9;
    pub const EDGE: usize = 10;
    pub const HELD: usize = 11;
}

/// Of fields of `one_of_each_solid`: row, field, least and most.
pub const SOLID_RANGES: [(usize, usize, u32, u32); 21] = {
    use row::*;
    [
        (NODE, 1, 0, 1_023),
        (NODE, 2, 0, 1_023),
        (NODE + 3, 1, 0, 1_023),
        (NODE + 3, 2, 0, 1_023),
        (NODE + 3, 3, 0, 1_023),
        (MATERIAL, 1, 1, 500_000),
        (MATERIAL, 2, 1, 500_000),
        (MATERIAL, 3, 1, 5_000),
        (MATERIAL, 4, 1, 500_000),
        (TRIANGLE, 4, 1, 1),
        (TRIANGLE, 5, 1, 4_000),
        (SOLID, 1, 1, 4),
        (SOLID, 2, 1, 4),
        (SOLID, 3, 1, 4),
        (SOLID, 4, 1, 4),
        (SOLID, 5, 1, 1),
        (HEAT, 1, 1, 2),
        (HEAT, 2, 1, 5_000_000),
        (FILM, 1, 1, 1),
        (EDGE, 2, 2, 4),
        (HELD, 1, 1, 4),
    ]
};

/// Eight columns that are neither blank nor a number.
pub const NO_NUMBERS: [&[u8; 8]; 9] = [
    b"      07",
    b"7       ",
    b"     7 7",
    b"      -7",
    b"      +7",
    b"       x",
    b"00000000",
    b"     7\t ",
    b"     \n 7",
];

/// A table with one number changed.
pub fn with(table: &[u32], row: usize, field: usize, value: u32) -> Vec<u32> {
    let mut table = table.to_vec();
    table[6 * row + field] = value;
    table
}

/// A table with two rows in each other's place.
pub fn swapped(table: &[u32], i: usize, j: usize) -> Vec<u32> {
    let mut table = table.to_vec();
    (0..6).for_each(|field| table.swap(6 * i + field, 6 * j + field));
    table
}

/// The columns of a card's field, put into a deck's bytes.
pub fn put(bytes: &[u8], row: usize, field: usize, columns: &[u8]) -> Vec<u8> {
    let mut bytes = bytes.to_vec();
    bytes[42 * row + 8 * field - 7..=42 * row + 8 * field].copy_from_slice(columns);
    bytes
}

pub fn card(letter: u32, fields: &[u32]) -> Card {
    let mut card = [0; 6];
    card[0] = letter;
    card[1..1 + fields.len()].copy_from_slice(fields);
    card
}

/// Is the letter in the row of the last element, by the trailer's counts, a V?
pub fn is_solid(table: &[u32]) -> bool {
    let trailer = &table[table.len().saturating_sub(6)..];
    let row: u64 = trailer.iter().skip(2).take(3).map(|&n| u64::from(n)).sum();
    let mut cards = table.chunks_exact(6);
    cards.nth(row as usize).is_some_and(|card| card[0] == V)
}

pub fn nodes_of(table: &[u32]) -> usize {
    table[table.len() - 4] as usize
}

pub fn triangle(n: usize) -> usize {
    n * (n + 1) / 2
}

/// A deck of one heated element and what to lend to its step, so that each of its nodes is a tick warmer after it where its
/// load is just this or a little more, and as it was where it is a little less. Corners may be the same node.
pub struct Scales {
    pub table: Vec<u32>,
    pub p: Vec<i64>,
    pub a: Vec<i64>,
    pub factor: Vec<i64>,
    pub temperatures: Vec<i64>,
    pub carried: Vec<i64>,
}

impl Scales {
    /// An edge of a g of 0 and no load: with it the fourth row has all its columns.
    const TIE: [u32; 5] = [1, 4, 1, 0, 1];

    /// As warm as this before the step.
    pub const WARM: i64 = 1 << 24;

    /// A fourth node, held at one tick, brings what no multiple of WARM does. A row of A' is 16 alone, so that a right side of
    /// 8 more than 16·WARM is a half of a tick, and goes up.
    pub fn new(corners: [u32; 3], microwatts: u32, loads: [i64; 3]) -> Scales {
        let mut groups = Groups::base();
        groups.nodes.push([100, 100]);
        groups.elements[0][..3].copy_from_slice(&corners);
        groups.heats.push([1, microwatts]);
        groups.edges.push(Scales::TIE);
        groups.fixed.push([4, 1]);
        let wanted = loads.map(|load| 16 * Scales::WARM + 8 - load);
        let [d1, d2, d3] = wanted.map(|right| right.div_euclid(Scales::WARM));
        let [r1, r2, r3] = wanted.map(|right| right.rem_euclid(Scales::WARM));
        Scales {
            table: groups.table(),
            p: vec![d1, 0, d2, 0, 0, d3, r1, r2, r3, 0],
            a: vec![16, 0, 16, 0, 0, 16, 0, 0, 0, 0],
            factor: vec![16, 0, 16, 0, 0, 16, 0, 0, 0, 1 << 20],
            temperatures: vec![Scales::WARM, Scales::WARM, Scales::WARM, 1],
            carried: vec![0; 4],
        }
    }

    /// The same of a tetrahedron whose corners are of the first three nodes.
    pub fn new_solid(corners: [u32; 4], microwatts: u32, loads: [i64; 3]) -> Scales {
        let [i, j, k, l] = corners;
        let mut groups = Groups::corner();
        groups.solids = vec![[i, j, k, l, 1]];
        groups.heats.push([1, microwatts]);
        groups.edges.push(Scales::TIE);
        groups.fixed.push([4, 1]);
        Scales {
            table: groups.table(),
            ..Scales::new([1, 2, 3], microwatts, loads)
        }
    }

    /// What the first three nodes get where each corner gets so much.
    pub fn loads(corners: &[u32], each: i64) -> [i64; 3] {
        [1, 2, 3].map(|node| {
            let times = corners.iter().filter(|&&corner| corner == node).count();
            times as i64 * each
        })
    }

    /// Every three of three nodes, in every order, some of them the same.
    pub fn corners() -> impl Iterator<Item = [u32; 3]> {
        (0..27).map(|number| [number / 9 + 1, number / 3 % 3 + 1, number % 3 + 1])
    }

    /// Heats of every remainder by three, at both ends of the range and between.
    pub const HEATS: [u32; 12] = [
        1, 2, 3, 4, 5, 6, 750_000, 750_001, 750_002, 4_999_998, 4_999_999, 5_000_000,
    ];
}

/// All that is lent to build, replace and step, a little longer than asked and
/// full of marks, so that a number written where none may be is seen.
#[derive(Clone, Debug, PartialEq)]
pub struct Lent {
    pub table: Vec<u32>,
    pub p: Vec<i64>,
    pub a: Vec<i64>,
    pub factor: Vec<i64>,
    pub work: Vec<i64>,
    pub temperatures: Vec<i64>,
    pub carried: Vec<i64>,
}

pub const MARK: i64 = i64::MIN + 77;
pub const EXTRA: usize = 3;

impl Lent {
    /// Every node at D's start, and nothing carried.
    pub fn new(table: Vec<u32>) -> Lent {
        let n = nodes_of(&table);
        let matrix = vec![MARK; triangle(n) + EXTRA];
        let start = i64::from(table[2]);
        let [temperatures, carried] = [start, 0].map(|number| {
            let mut numbers = vec![number; n];
            numbers.extend([MARK; EXTRA]);
            numbers
        });
        Lent {
            table,
            p: matrix.clone(),
            a: matrix.clone(),
            factor: matrix.clone(),
            work: matrix,
            temperatures,
            carried,
        }
    }

    /// With P, A and the factor of its own deck.
    pub fn built(table: Vec<u32>) -> Lent {
        let mut lent = Lent::new(table);
        assert_eq!(lent.build(), Answer::Done);
        lent
    }

    pub fn build(&mut self) -> Answer {
        reference::build(
            &self.table,
            &mut self.p,
            &mut self.a,
            &mut self.factor,
            &mut self.work,
        )
    }

    pub fn replace(&mut self, card: u32, new: Card) -> Answer {
        let Lent {
            table,
            p,
            a,
            factor,
            work,
            ..
        } = self;
        reference::replace(table, p, a, factor, work, card, new)
    }

    pub fn step(&mut self) -> Stepped {
        reference::step(
            &self.table,
            &self.p,
            &self.a,
            &self.factor,
            &mut self.temperatures,
            &mut self.carried,
        )
    }

    pub fn run(&mut self) -> Ran {
        let Lent {
            table,
            p,
            a,
            factor,
            work,
            temperatures,
            carried,
        } = self;
        reference::run(table, p, a, factor, work, temperatures, carried)
    }

    /// The work slice as a build or an E, V, F or G replacement must leave it on 0, 7 and 8.
    pub fn with_zeroed_work(mut self) -> Lent {
        let length = triangle(nodes_of(&self.table));
        self.work[..length].fill(0);
        self
    }
}

pub fn refused(number: u8, place: u32) -> Answer {
    Answer::Refused(Refusal { number, place })
}

pub fn step_refused(number: u8, place: u32) -> Stepped {
    Stepped::Refused(Refusal { number, place })
}

/// A table as bytes, whether it is a deck or not; each field has at most eight digits. A z or kz of 0 is blank in a flat deck.
pub fn text_of(table: &[u32]) -> Vec<u8> {
    let mut text = String::new();
    let solid = is_solid(table);
    for card in table.chunks_exact(6) {
        let used = match card[0] {
            C if card[2] == H || card[2] == T => 4,
            E | V | G | C | Z => 5,
            N => 2 + usize::from(solid || card[3] != 0),
            M => 3 + usize::from(solid || card[4] != 0),
            D | F => 3,
            _ => 2,
        };
        let fields: String = card[1..=used]
            .iter()
            .map(|field| format!("{field:8}"))
            .collect();
        // An M has its emissivity in the last columns, or blanks.
        let last = match (card[0], card[5]) {
            (M, 1..) => format!("{fields:32}{:8}", card[5]),
            _ => fields,
        };
        text += &format!("{}{last:40}\n", char::from(card[0] as u8));
    }
    text.into_bytes()
}

pub fn bytes_of(table: &[u32]) -> Vec<u8> {
    let mut bytes = vec![0; 7 * table.len()];
    assert_eq!(reference::write(table, &mut bytes), Answer::Done);
    bytes
}
