//! A card as 42 bytes: a letter, five fields of 8 columns, a newline.

use crate::card::{fields_known, fields_used, Card, CARD_BYTES, EMISSIVITY, M};

const COLUMNS: usize = 8;

/// The card that the bytes spell; None if the letter is none of the twelve, or
/// the columns or the newline are wrong. Ranges are the judge's, and so is a z or
/// kz that a flat deck has no use for and an emissivity of 0: told beside the card, since a 0 is filled too.
pub fn scan(bytes: &[u8], solid: bool) -> Option<(Card, bool)> {
    if bytes.len() != CARD_BYTES || bytes[CARD_BYTES - 1] != b'\n' {
        return None;
    }
    let mut card = [0; 6];
    card[0] = u32::from(bytes[0]);
    let mut filled = false;
    for (i, columns) in bytes[1..CARD_BYTES - 1].chunks_exact(COLUMNS).enumerate() {
        // Of a C the second field says whether the fifth is used.
        if i < fields_used(&card, solid)? {
            card[i + 1] = number(columns)?;
        } else if columns.iter().any(|&byte| byte != b' ') {
            if i >= fields_known(&card)? {
                return None;
            }
            card[i + 1] = number(columns)?;
            filled |= !is_emissivity(&card, i + 1) || card[i + 1] == 0;
        }
    }
    Some((card, filled))
}

fn is_emissivity(card: &Card, field: usize) -> bool {
    card[0] == M && field == EMISSIVITY
}

/// Blanks, then a decimal number without leading zeros. Eight digits fit 32 bits.
fn number(columns: &[u8]) -> Option<u32> {
    let blanks = columns.iter().take_while(|&&byte| byte == b' ').count();
    let digits = &columns[blanks..];
    if digits.is_empty() || (digits[0] == b'0' && digits.len() > 1) {
        return None;
    }
    let mut value = 0;
    for &byte in digits {
        if !byte.is_ascii_digit() {
            return None;
        }
        value = 10 * value + u32::from(byte - b'0');
    }
    Some(value)
}

/// The 42 bytes of an accepted card, whose fields all have 8 digits at most.
pub fn print(card: &Card, solid: bool, bytes: &mut [u8]) {
    bytes.fill(b' ');
    bytes[0] = card[0] as u8;
    bytes[CARD_BYTES - 1] = b'\n';
    let used = fields_used(card, solid).unwrap_or(0);
    let emits = is_emissivity(card, EMISSIVITY) && card[EMISSIVITY] != 0;
    for i in (0..used).chain(emits.then_some(EMISSIVITY - 1)) {
        let mut rest = card[i + 1];
        for column in bytes[1 + i * COLUMNS..1 + (i + 1) * COLUMNS]
            .iter_mut()
            .rev()
        {
            *column = b'0' + (rest % 10) as u8;
            rest /= 10;
            if rest == 0 {
                break;
            }
        }
    }
}
