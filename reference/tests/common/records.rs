//! Records of the thermal bench.

use super::*;
use kind::*;

pub const RECORD_BYTES: usize = 12;

/// The kinds of records.
pub mod kind {
    pub const HEAT: u16 = 1;
    pub const FILM: u16 = 2;
    pub const HELD: u16 = 3;
}

/// What a negative single has.
pub const SIGN: u32 = 1 << 31;
pub const INFINITY: u32 = 0x7F80_0000;

/// Two values, by their bits.
#[derive(Clone, Copy, Debug, PartialEq)]
pub struct Record {
    pub kind: u16,
    pub number: u16,
    pub values: [u32; 2],
}

impl Record {
    pub fn new(kind: u16, number: u16, values: [u32; 2]) -> Record {
        Record {
            kind,
            number,
            values,
        }
    }

    pub fn heat(element: u16, watts: f32) -> Record {
        Record::new(HEAT, element, [watts.to_bits(), 0])
    }

    pub fn film(element: u16, watts: f32, kelvins: f32) -> Record {
        Record::new(FILM, element, [watts, kelvins].map(f32::to_bits))
    }

    pub fn held(node: u16, kelvins: f32) -> Record {
        Record::new(HELD, node, [kelvins.to_bits(), 0])
    }

    /// The last one, after so many.
    pub fn tail(count: u16) -> Record {
        Record::new(0, count, [0, 0])
    }

    pub fn bytes(&self) -> Vec<u8> {
        let mut bytes = [self.kind, self.number].map(u16::to_le_bytes).concat();
        bytes.extend(self.values.map(u32::to_le_bytes).concat());
        bytes
    }

    pub fn of(bytes: &[u8]) -> Record {
        let number = |at: usize, size: usize| {
            (0..size).fold(0, |sum, i| sum | u32::from(bytes[at + i]) << (8 * i))
        };
        Record {
            kind: number(0, 2) as u16,
            number: number(2, 2) as u16,
            values: [number(4, 4), number(8, 4)],
        }
    }

    /// How many of its two values are used.
    pub fn used(&self) -> usize {
        match self.kind {
            HEAT | HELD => 1,
            FILM => 2,
            _ => 0,
        }
    }
}

/// The records one after another, without a tail.
pub fn laid(records: &[Record]) -> Vec<u8> {
    records.iter().flat_map(Record::bytes).collect()
}

/// With the tail that they should have.
pub fn with_tail(records: &[Record]) -> Vec<u8> {
    let mut bytes = laid(records);
    bytes.extend(Record::tail(records.len() as u16).bytes());
    bytes
}

/// Whole numbers in a unit of the record's: µW, mW and ticks to a watt and a kelvin.
pub const UNITS: [f64; 3] = [1_000_000.0, 1_000.0, 65_536.0];

/// The single nearest to a whole number of such a unit, or to so many halves beside it.
pub fn single(whole: f64, unit: f64) -> u32 {
    ((whole / unit) as f32).to_bits()
}

/// What a finite single is in that unit, by doubles, which hold the product exactly; it may be negative.
pub fn field(bits: u32, unit: f64) -> f64 {
    (f64::from(f32::from_bits(bits)) * unit).round()
}

impl Groups {
    /// Without the cards that records become, and without the changes of such.
    pub fn bare(&self) -> Groups {
        let changes = self.changes.iter().copied();
        Groups {
            heats: vec![],
            films: vec![],
            fixed: vec![],
            changes: changes.filter(|change| change[1] == E).collect(),
            ..self.clone()
        }
    }

    /// Records of its H, F and T cards, each value the single nearest to the field.
    pub fn records(&self) -> Vec<Record> {
        let [micro, milli, kelvin] = UNITS;
        let value = |field: u32, unit: f64| single(f64::from(field), unit);
        let heats = self
            .heats
            .iter()
            .map(|&[element, heat]| Record::new(HEAT, element as u16, [value(heat, micro), 0]));
        let films = self.films.iter().map(|&[element, film, ambient]| {
            let values = [value(film, milli), value(ambient, kelvin)];
            Record::new(FILM, element as u16, values)
        });
        let fixed = self
            .fixed
            .iter()
            .map(|&[node, ticks]| Record::new(HELD, node as u16, [value(ticks, kelvin), 0]));
        heats.chain(films).chain(fixed).collect()
    }

    /// With the cards that records are, each rounded by doubles. All are finite, and none is past what a card's number can be.
    pub fn measured(&self, records: &[Record]) -> Groups {
        let [micro, milli, kelvin] = UNITS;
        let mut groups = self.bare();
        for record in records {
            let (number, [a, b]) = (u32::from(record.number), record.values);
            let whole = |bits: u32, unit: f64| field(bits, unit) as u32;
            match record.kind {
                HEAT => groups.heats.push([number, whole(a, micro)]),
                FILM => groups
                    .films
                    .push([number, whole(a, milli), whole(b, kelvin)]),
                HELD => groups.fixed.push([number, whole(a, kelvin)]),
                _ => panic!("{record:?}"),
            }
        }
        groups
    }
}

impl Chance {
    /// Any single, of every sort: halves and both sides of them, the ends of the ranges, subnormal ones, infinities, NaNs.
    pub fn single(&mut self) -> u32 {
        let unit = self.pick(&UNITS);
        let sign = if self.one_in(4) { SIGN } else { 0 };
        let near = |chance: &mut Chance, bits: u32| match chance.within(0, 2) {
            0 => bits.saturating_sub(1),
            1 => bits,
            _ => bits + 1,
        };
        let magnitude = match self.within(0, 9) {
            0 => self.pick(&[0, 1, 2, (1 << 23) - 1, 1 << 23, INFINITY - 1, INFINITY]),
            1 => INFINITY | self.pick(&[1, 1 << 22, (1 << 23) - 1]),
            2 => self.bits() as u32 & !SIGN,
            3 => self.bits() as u32 >> self.within(9, 31),
            4 | 5 => {
                let bits = self.half(unit);
                near(self, bits)
            }
            6 => {
                let ends = [0.5, 1.0, 1.5, 1e5, 1e5 + 0.5, 5e6, 5e6 + 0.5, 33_554_432.0];
                let bits = single(self.pick(&ends), unit);
                near(self, bits)
            }
            _ => {
                let most = self.pick(&[10, 1_000, 100_000, 5_000_000, TOP]);
                single(f64::from(self.within(0, most)), unit)
            }
        };
        sign | magnitude
    }

    /// An exact half of a unit, that a single can hold: an odd number of 1/128 W, of 1/16 W/(m² K) or of 1/131,072 K.
    pub fn half(&mut self, unit: f64) -> u32 {
        let (part, most) = match unit as u32 {
            1_000_000 => (128.0, 319),
            1_000 => (16.0, 799),
            _ => (131_072.0, self.pick(&[9, 999, (1 << 23) - 1])),
        };
        let odd = 2 * self.within(0, most) + 1;
        ((f64::from(odd) / part) as f32).to_bits()
    }

    /// A single that is a right value of this field: of kelvins up to 512, negative ones that round to zero too.
    pub fn fair(&mut self, unit: f64) -> u32 {
        let (least, most) = match unit as u32 {
            1_000_000 => (1, 5_000_000),
            1_000 => (1, 100_000),
            _ => (0, TOP),
        };
        for _ in 0..8 {
            let bits = self.single();
            let whole = field(bits, unit);
            if f64::from(least) <= whole && whole <= f64::from(most) {
                return bits;
            }
        }
        single(f64::from(self.within(least, most)), unit)
    }

    /// Records of a deck's loads, with right values of every sort.
    pub fn records(&mut self, groups: &Groups) -> Vec<Record> {
        let [micro, milli, kelvin] = UNITS;
        let mut records = groups.records();
        for record in &mut records {
            record.values = match record.kind {
                HEAT => [self.fair(micro), 0],
                FILM => [self.fair(milli), self.fair(kelvin)],
                _ => [self.fair(kelvin), 0],
            };
        }
        records
    }

    /// Changes one or two of their fields, or swaps two of them.
    pub fn spoil(&mut self, records: &mut [Record]) {
        if records.is_empty() {
            return;
        }
        for _ in 0..self.within(1, 2) {
            let (at, other) = (self.index(records.len()), self.index(records.len()));
            match self.within(0, 6) {
                0 => records[at].kind = self.pick(&[0, 1, 2, 3, 4, 256, 65_535]),
                1 => records[at].number = self.pick(&[0, 1, 2, 3, 5, 8, 20, 255, 65_535]),
                2 | 3 => records[at].values[1] = self.single(),
                4 => records.swap(at, other),
                _ => records[at].values[0] = self.single(),
            }
        }
    }
}
