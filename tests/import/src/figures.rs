//! Figures by hand, out of the archive alone.

use crate::case::Case;
use crate::decks::{kind::*, with_tail, Groups, Record, SIGN};

const MARK: u32 = 77;

/// One record on the papers' base, which has six cards and a trailer: the fields of its card, or number and place.
fn alone(record: Record) -> Result<[u32; 2], (u64, u64)> {
    let case = Case {
        table: Groups::base().table(),
        records: with_tail(&[record]),
        second: vec![MARK; 50],
    };
    let ours = case.by_archive();
    let second = &ours.lent.second;
    match ours.answer {
        0 => {
            assert_eq!(second[..36], case.table[..36]);
            assert_eq!(second[42..], [90, 294, 3, 1, 1, 1, MARK, MARK]);
            Ok([second[38], second[39]])
        }
        answer => {
            assert!(second.iter().all(|&number| number == MARK));
            Err((answer & 65_535, answer >> 16))
        }
    }
}

fn field(kind: u16, bits: u32) -> Result<u32, (u64, u64)> {
    alone(Record::new(kind, 1, [bits, 0])).map(|[field, _]| field)
}

pub fn all() {
    // 1/128 W is 7,812.5 µW, 1/16 W/(m² K) is 62.5 mW, 1/131,072 K is half a tick.
    let [heat, film, kelvin] = [1f32 / 128.0, 1.0 / 16.0, 1.0 / 131_072.0].map(f32::to_bits);
    assert_eq!(field(HEAT, heat), Ok(7_813));
    assert_eq!(field(HEAT, heat - 1), Ok(7_812));
    let of = |bits: u32| alone(Record::new(FILM, 1, [bits, 0])).map(|[film, _]| film);
    assert_eq!(of(film), Ok(63));
    assert_eq!(of(film - 1), Ok(62));
    assert_eq!(field(HELD, kelvin), Ok(1));
    assert_eq!(field(HELD, kelvin - 1), Ok(0));
    assert_eq!(field(HELD, SIGN | (kelvin - 1)), Ok(0));
    assert_eq!(field(HELD, SIGN | kelvin), Err((4, 1)));
    assert_eq!(field(HELD, SIGN), Ok(0));
    assert_eq!(field(HELD, 512f32.to_bits()), Ok(33_554_432));
    assert_eq!(field(HELD, 512f32.to_bits() + 1), Err((4, 1)));
    assert_eq!(field(HEAT, 5f32.to_bits()), Ok(5_000_000));
    assert_eq!(field(HEAT, 0), Err((4, 1)));
    assert_eq!(field(HELD, f32::NAN.to_bits()), Err((15, 1)));
    assert_eq!(field(HELD, f32::INFINITY.to_bits()), Err((15, 1)));
    assert_eq!(alone(Record::new(HELD, 1, [0, SIGN])), Err((16, 1)));
    assert_eq!(alone(Record::new(0, 1, [0, 0])), Err((16, 1)));
    assert_eq!(
        alone(Record::film(1, 12.0, 300.0)),
        Ok([12_000, 19_660_800])
    );
}
