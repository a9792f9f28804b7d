//! What an R card's triangle loses to its source: document 02, [10].

use crate::card::{MAX_ELEMENTS, MAX_NODES, R};
use crate::element::{corners, doubled_area};
use crate::judge::Deck;
use crate::layout::Vector;

/// Document 000's sigma, 5.66961e-8 W/(m² K⁴), in 1e-13 of it.
const SIGMA: u128 = 566_961;

/// What each corner loses, in 1/65,536 µW: the nearest whole number, halves away from zero, to a third of
///
/// ```text
/// emissivity/1,000 · sigma/10^13 · doubled/2 · (50 µm)² · ((sum/3)⁴ - source⁴)/65,536⁴ W
/// ```
///
/// A watt is 10^6 · 65,536 units, so over one line this is emissivity · sigma · doubled · (sum⁴ - 81 · source⁴), and below it
/// 3 · 10^3 · 10^13 · 2 · 10^12 · 3⁴ · 2^64 / (2,500 · 10^6 · 2^16) = 2^69 · 5^18 · 3^5.
pub fn loss(emissivity: u32, doubled: u64, sum: u64, source: u32) -> i64 {
    let fourth = |ticks: u64| u128::from(ticks).pow(4);
    let (warm, cold) = (fourth(sum), fourth(3 * u64::from(source)));
    let gap = warm.abs_diff(cold);
    let rate = u128::from(emissivity) * SIGMA * u128::from(doubled);

    // The product passes 128 bits: of twice it the upper part, in 2^64, is all that the quotient by 2^70 · 5^18 · 3^5 asks for.
    let (high, low) = (gap >> 64, gap & u128::from(u64::MAX));
    let upper = 2 * rate * high + (2 * rate * low >> 64);
    let divisor = 5u128.pow(18) * 3u128.pow(5);
    let size = (upper + (divisor << 5)) / (divisor << 6);
    let size = i64::try_from(size).expect("a loss is below 2^42");
    if warm < cold {
        -size
    } else {
        size
    }
}

/// An R card with all that its flux is made of but the temperatures.
#[derive(Clone, Copy)]
struct Source {
    nodes: [usize; 3],
    emissivity: u32,
    doubled: u64,
    ticks: u32,
}

/// Those of a deck.
pub struct Sources {
    count: usize,
    each: [Source; MAX_ELEMENTS],
}

impl Sources {
    pub fn of(deck: &Deck) -> Sources {
        let none = Source {
            nodes: [0; 3],
            emissivity: 0,
            doubled: 0,
            ticks: 0,
        };
        let mut sources = Sources {
            count: 0,
            each: [none; MAX_ELEMENTS],
        };
        for card in deck.loads().filter(|card| card[0] == R) {
            let triangle = deck.element(card[1] as usize - 1);
            let nodes = corners(&triangle);
            sources.each[sources.count] = Source {
                nodes,
                emissivity: deck.emissivity(triangle[4] as usize - 1),
                doubled: doubled_area(deck, nodes),
                ticks: card[2],
            };
            sources.count += 1;
        }
        sources
    }

    /// What each node loses by all of them, by the temperatures before the step.
    pub fn losses(&self, temperatures: &[i64]) -> Vector {
        let mut losses = [0; MAX_NODES];
        for source in &self.each[..self.count] {
            let sum: i64 = source.nodes.iter().map(|&node| temperatures[node]).sum();
            let sum = u64::try_from(sum).expect("temperatures on the scale");
            let each = loss(source.emissivity, source.doubled, sum, source.ticks);
            for node in source.nodes {
                losses[node] += each;
            }
        }
        losses
    }
}
