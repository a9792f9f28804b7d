//! The decks that are measured.

use crate::decks::{firsts, shrunk, starts_of, triangle};
use reference::{Answer, Card, MAX_ROWS};

const E: u32 = b'E' as u32;
const V: u32 = b'V' as u32;
const F: u32 = b'F' as u32;
const G: u32 = b'G' as u32;
const H: u32 = b'H' as u32;
const R: u32 = b'R' as u32;
#[cfg(feature = "apart")]
const T: u32 = b'T' as u32;

pub struct Board {
    pub bytes: Vec<u8>,
    pub table: Vec<u32>,
    pub nodes: usize,
    /// Where each row begins in the kept form.
    pub starts: Vec<u32>,
    /// P, A, the factor and a work slice, packed and kept.
    pub packed: [Vec<i64>; 4],
    pub kept: [Vec<i64>; 4],
}

impl Board {
    pub fn read(path: &str) -> Board {
        let bytes = std::fs::read(path).expect("a deck can be read");
        let mut table = vec![0; 6 * MAX_ROWS];
        let (answer, start, end) = reference::read(&bytes, &mut table);
        assert_eq!(answer, Answer::Done, "{path} is a deck");
        table.truncate((end - start) / 7);
        let nodes = table[table.len() - 4] as usize;
        let mut packed = [0; 4].map(|_| vec![0; triangle(nodes)]);
        let [p, a, factor, work] = &mut packed;
        let answer = reference::build(&table, p, a, factor, work);
        assert_eq!(answer, Answer::Done, "{path} builds");
        let firsts = firsts(&table);
        Board {
            bytes,
            nodes,
            starts: starts_of(&table),
            kept: packed.each_ref().map(|matrix| shrunk(&firsts, matrix)),
            packed,
            table,
        }
    }

    /// Every node at D's start temperature.
    pub fn start(&self) -> Vec<i64> {
        vec![i64::from(self.table[2]); self.nodes]
    }

    /// Its factor, packed and kept.
    pub fn factors(&self) -> [Vec<i64>; 2] {
        [self.packed[2].clone(), self.kept[2].clone()]
    }

    /// The same with pivots some parts of 64 larger, so that the first step takes so many corrections; none where all nodes are as
    /// warm as they are held.
    pub fn factors_for(&self, corrections: u64) -> Option<[Vec<i64>; 2]> {
        let [p, a, own, _] = &self.packed;
        let packed = (64..256).find_map(|part| {
            let mut factor = own.clone();
            for i in 0..self.nodes {
                let d = &mut factor[triangle(i) + i];
                *d = *d * part / 64;
            }
            let (mut temperatures, mut carried) = (self.start(), vec![0; self.nodes]);
            let (table, first) = (&self.table, &mut temperatures);
            let answer = reference::step(table, p, a, &factor, first, &mut carried);
            (answer.packed() == 256 * corrections).then_some(factor)
        })?;
        let kept = shrunk(&firsts(&self.table), &packed);
        Some([packed, kept])
    }

    /// The cards of a letter, each with its number.
    fn cards(&self, letter: u32) -> impl Iterator<Item = (u32, Card)> + '_ {
        let cards = (1..).zip(self.table.chunks_exact(6));
        cards
            .filter(move |(_, card)| card[0] == letter)
            .map(|(number, card)| (number, card.try_into().unwrap()))
    }

    /// The first H card: its number, the card.
    pub fn heat(&self) -> (u32, Card) {
        self.cards(H).next().expect("a board is heated")
    }

    /// The V card, or the E card where there is no V, whose least corner is nearest to a node: that corner, the card's number, the
    /// card. Its fifth field can be one more: a material, or a thickness.
    pub fn element_near(&self, node: u32) -> (u32, u32, Card) {
        let (letter, corners) = match self.cards(V).next() {
            Some(_) => (V, 4),
            None => (E, 3),
        };
        self.cards(letter)
            .map(|(number, card)| (least(&card[1..=corners]), number, card))
            .min_by_key(|(least, ..)| least.abs_diff(node))
            .expect("a deck has an element")
    }

    /// The F card whose triangle's least corner is nearest to a node: that corner, the card's number, the card; none where the board
    /// has none.
    pub fn film_near(&self, node: u32) -> Option<(u32, u32, Card)> {
        let triangles: Vec<Card> = self.cards(E).map(|(_, card)| card).collect();
        self.cards(F)
            .map(|(number, card)| {
                let corners = &triangles[card[1] as usize - 1][1..4];
                (least(corners), number, card)
            })
            .min_by_key(|(least, ..)| least.abs_diff(node))
    }

    /// The G card whose lower node is nearest to a node: that node, the card's number, the card; none where the board has none.
    pub fn edge_near(&self, node: u32) -> Option<(u32, u32, Card)> {
        self.cards(G)
            .map(|(number, card)| (card[1], number, card))
            .min_by_key(|(low, ..)| low.abs_diff(node))
    }
}

impl Board {
    /// The same board with no R card; none where it has none.
    pub fn without_sources(&self) -> Option<Board> {
        let cards = self.table.chunks_exact(6);
        let mut table: Vec<u32> = cards
            .filter(|card| card[0] != R)
            .flatten()
            .copied()
            .collect();
        let gone = (self.table.len() - table.len()) as u32 / 6;
        let end = table.len();
        table[end - 5] -= 42 * gone;
        table[end - 1] -= gone;
        (gone > 0).then(|| Board {
            bytes: self.bytes.clone(),
            table,
            nodes: self.nodes,
            starts: self.starts.clone(),
            packed: self.packed.clone(),
            kept: self.kept.clone(),
        })
    }
}

#[cfg(feature = "apart")]
impl Board {
    /// The first T card, if a node is held: its number, the card.
    pub fn held(&self) -> Option<(u32, Card)> {
        self.cards(T).next()
    }

    /// A', packed: A with 2^20 alone in the row and column of each node that is held.
    pub fn cleared(&self) -> Vec<i64> {
        let mut matrix = self.packed[1].clone();
        for (_, card) in self.cards(T) {
            let node = card[1] as usize - 1;
            for other in 0..self.nodes {
                matrix[triangle(node.max(other)) + node.min(other)] = 0;
            }
            matrix[triangle(node) + node] = 1 << 20;
        }
        matrix
    }

    /// A packed triangle in the kept form.
    pub fn shrunk(&self, packed: &[i64]) -> Vec<i64> {
        shrunk(&firsts(&self.table), packed)
    }
}

/// What a run is lent and may write.
#[cfg(feature = "run")]
pub struct Lent {
    pub table: Vec<u32>,
    pub matrices: [Vec<i64>; 4],
    pub temperatures: Vec<i64>,
    pub carried: Vec<i64>,
}

#[cfg(feature = "run")]
impl Lent {
    /// As it was before the run.
    pub fn renew(&mut self, board: &Board, matrices: &[Vec<i64>; 4]) {
        self.table.copy_from_slice(&board.table);
        for (lent, own) in self.matrices.iter_mut().zip(matrices) {
            lent.copy_from_slice(own);
        }
        self.temperatures.fill(i64::from(board.table[2]));
        self.carried.fill(0);
    }
}

#[cfg(feature = "run")]
impl Board {
    pub fn lent(&self, matrices: &[Vec<i64>; 4]) -> Lent {
        Lent {
            table: self.table.clone(),
            matrices: matrices.clone(),
            temperatures: self.start(),
            carried: vec![0; self.nodes],
        }
    }

    /// The same board with a change at every other step, of H, F and E in turn, as far as there are steps and at most 64.
    pub fn with_changes(&self) -> Board {
        use crate::decks::C;
        let (heats, films): (Vec<_>, Vec<_>) = (self.cards(H).collect(), self.cards(F).collect());
        let triangles: Vec<_> = self.cards(E).collect();
        let mut table = self.table[..self.table.len() - 6].to_vec();
        let mut trailer = self.table[self.table.len() - 6..].to_vec();
        for (at, step) in (1..=self.table[3]).step_by(2).take(64).enumerate() {
            let turn = at / 3;
            let change = match at % 3 {
                0 => Some(&heats[turn % heats.len()].1).map(|h| [H, h[1], h[2] + step, 0]),
                1 if !films.is_empty() => {
                    let film = &films[turn % films.len()].1;
                    Some([F, film[1], film[2] + step, film[3]])
                }
                _ if !triangles.is_empty() => {
                    let element = turn % triangles.len();
                    let card = &triangles[element].1;
                    Some([E, element as u32 + 1, card[4], card[5] - step])
                }
                _ => None,
            };
            if let Some([letter, key, first, second]) = change {
                table.extend([C, step, letter, key, first, second]);
                trailer[1] += 42;
                trailer[5] += 1;
            }
        }
        table.extend(trailer);
        Board {
            bytes: self.bytes.clone(),
            table,
            nodes: self.nodes,
            starts: self.starts.clone(),
            packed: self.packed.clone(),
            kept: self.kept.clone(),
        }
    }
}

fn least(nodes: &[u32]) -> u32 {
    nodes.iter().copied().fold(u32::MAX, u32::min)
}
