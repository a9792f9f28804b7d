//! A card as six numbers, and the sizes that a deck may have.

/// The letter's ASCII code, then five fields; an unused one is 0.
pub type Card = [u32; 6];

pub const D: u32 = b'D' as u32;
pub const N: u32 = b'N' as u32;
pub const M: u32 = b'M' as u32;
pub const E: u32 = b'E' as u32;
pub const V: u32 = b'V' as u32;
pub const H: u32 = b'H' as u32;
pub const F: u32 = b'F' as u32;
pub const G: u32 = b'G' as u32;
pub const R: u32 = b'R' as u32;
pub const T: u32 = b'T' as u32;
pub const C: u32 = b'C' as u32;
pub const Z: u32 = b'Z' as u32;

pub const MAX_NODES: usize = 96;
pub const MAX_MATERIALS: usize = 8;
pub const MAX_ELEMENTS: usize = 160;
pub const MAX_EDGES: usize = 160;
pub const MAX_CHANGES: usize = 64;
/// H, F and R of every element, G of every edge, T of every node, and the changes.
pub const MAX_LOADS: usize = 3 * MAX_ELEMENTS + MAX_EDGES + MAX_NODES + MAX_CHANGES;
/// D, every group full, and Z.
pub const MAX_ROWS: usize = 2 + MAX_NODES + MAX_MATERIALS + MAX_ELEMENTS + MAX_LOADS;

pub const CARD_BYTES: usize = 42;
pub const MAX_BYTES: usize = 65_536;

/// The top of the temperature scale, in ticks of 1/65,536 K.
pub const TOP: u32 = 33_554_432;

/// The field of an M that is its emissivity in thousandths, 0 where it is blank.
pub const EMISSIVITY: usize = 5;
pub const MAX_EMISSIVITY: u32 = 1_000;

/// The most steps that D asks for, and the last increment that a C names.
pub const MAX_STEPS: u32 = 100_000;
/// A new value in a C card: all that eight columns hold. Its own range is asked when the change is made.
pub const MAX_VALUE: u32 = 99_999_999;

/// How many fields of a card are numbers; None of a letter that is none of the twelve. In a solid deck, one whose last
/// element is a V, an N has its z and an M its kz. A C has one new value where its letter's code is H's or T's.
pub fn fields_used(card: &Card, solid: bool) -> Option<usize> {
    match card[0] {
        H | R | T => Some(2),
        D | F => Some(3),
        C if card[2] == H || card[2] == T => Some(4),
        E | V | G | C | Z => Some(5),
        N => Some(2 + usize::from(solid)),
        M => Some(3 + usize::from(solid)),
        _ => None,
    }
}

/// How many may be: an M has its emissivity last, which in any deck may be blank.
pub fn fields_known(card: &Card) -> Option<usize> {
    if card[0] == M {
        Some(EMISSIVITY)
    } else {
        fields_used(card, true)
    }
}
