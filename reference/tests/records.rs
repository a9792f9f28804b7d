//! Records of the bench: what they become, and each refusal in its order.

mod common;

use common::kind::*;
use common::*;
use reference::{import, Answer};

const ROOM: usize = 6_396;
const NAN: u32 = INFINITY | 1 << 22;
/// The least NaN, a signalling one.
const NAN_ONE: u32 = INFINITY | 1;

/// A second table of so many numbers; on a refusal it must stay.
fn answer(table: &[u32], records: &[u8], room: usize) -> (Answer, Vec<u32>) {
    let marks = vec![0xA5A5_A5A5; room];
    let mut second = marks.clone();
    let answer = import(table, records, &mut second);
    if answer != Answer::Done {
        assert_eq!(second, marks);
    }
    (answer, second)
}

fn is_refused(table: &[u32], records: &[u8], number: u8, place: u32) {
    assert_eq!(answer(table, records, ROOM).0, refused(number, place));
}

/// Records with their tail become that deck, with room just enough, and with more, which stays; one less is 9.
fn becomes(table: &[u32], records: &[Record], right: &[u32]) {
    let bytes = with_tail(records);
    for more in [0, 1, 7] {
        let (answer, second) = answer(table, &bytes, right.len() + more);
        assert_eq!(answer, Answer::Done, "{records:x?}");
        assert_eq!(second[..right.len()], *right, "{records:x?}");
        assert!(second[right.len()..].iter().all(|&n| n == 0xA5A5_A5A5));
    }
    for less in [1, 6, right.len()] {
        let (answer, _) = answer(table, &bytes, right.len() - less);
        assert_eq!(answer, refused(9, 0));
    }
    accepts(right);
}

/// Ten triangles and twelve nodes of a sheet, with edges and without loads.
fn sheet() -> Groups {
    let mut groups = Groups::sheet(&mut Chance::seeded(5), 4, 3).bare();
    groups.edges = vec![[1, 2, 9, 9, 9], [2, 6, 9, 9, 9]];
    groups
}

#[test]
fn one_of_each() {
    let records = [
        Record::heat(1, 0.000_003),
        Record::film(1, 0.48, 300.0),
        Record::held(3, 289.917),
    ];
    for groups in [Groups::one_of_each(), Groups::base()] {
        let mut right = groups.bare();
        right.heats.push([1, 3]);
        right.films.push([1, 480, 19_660_800]);
        // 289.917 is nearest to 9,500,000/32,768 in a single, of which a tick is the half.
        right.fixed.push([3, 19_000_000]);
        becomes(&groups.bare().table(), &records, &right.table());
    }
}

/// H and F before the deck's G, T after them, and Z's counts; each kind alone, and none.
#[test]
fn places() {
    let groups = sheet();
    let all = [
        Record::heat(2, 1.0),
        Record::heat(9, 2.0),
        Record::film(3, 1.0, 1.0),
        Record::film(10, 2.0, 2.0),
        Record::held(1, 1.0),
        Record::held(12, 2.0),
    ];
    for mask in 0..64 {
        let some: Vec<Record> = (0..6)
            .filter(|at| mask >> at & 1 == 1)
            .map(|at| all[at])
            .collect();
        becomes(&groups.table(), &some, &groups.measured(&some).table());
    }
    let table = groups.measured(&all).table();
    let letters: Vec<u32> = table.chunks(6).map(|card| card[0]).collect();
    let first = letters.len() - 9;
    assert_eq!(letters[first..], [H, H, F, F, G, G, T, T, Z]);
    assert_eq!(table[table.len() - 1], 8);
}

/// The deck's changes, which can only be of E, come after T and stay as they are; one of another letter has no card to change.
#[test]
fn changes_stay_last() {
    let mut groups = sheet();
    groups.changes = vec![
        [1, E, 2, 1, 900],
        [1, E, 3, 1, 4_001],
        [100_000, E, 1, 9, 0],
    ];
    let all = [
        Record::heat(2, 1.0),
        Record::film(3, 1.0, 1.0),
        Record::held(12, 2.0),
    ];
    for mask in 0..8 {
        let some: Vec<Record> = (0..3)
            .filter(|at| mask >> at & 1 == 1)
            .map(|at| all[at])
            .collect();
        becomes(&groups.table(), &some, &groups.measured(&some).table());
    }
    let table = groups.measured(&all).table();
    let letters: Vec<u32> = table.chunks(6).map(|card| card[0]).collect();
    let first = letters.len() - 9;
    assert_eq!(letters[first..], [H, F, G, G, T, C, C, C, Z]);
    assert_eq!(table[table.len() - 1], 8);
    for letter in [H, F, T] {
        let mut other = groups.clone();
        other.changes[1] = [1, letter, 3, 1, 0];
        if letter == F {
            other.changes[1][4] = 9;
        }
        let place = other.table().len() as u32 / 6 - 2;
        is_refused(&other.table(), &with_tail(&all), 4, place);
    }
}

#[test]
fn largest() {
    let chance = &mut Chance::seeded(8);
    for mut groups in [Groups::largest(chance), Groups::largest_block(chance)] {
        // Of E alone, which a deck without H, F and T can have.
        groups.changes = (1..=64).map(|at| [at, E, 1 + at % 10, 1, 900]).collect();
        let records = groups.records();
        let right = groups.measured(&records);
        becomes(&groups.bare().table(), &records, &right.table());
        let cards = right.table().len() / 6;
        assert_eq!(cards, if groups.solids.is_empty() { 1_066 } else { 766 });
        // And one more of any kind.
        for last in [HEAT, FILM, HELD] {
            let mut more = records.clone();
            let at = more.iter().rposition(|record| record.kind == last).unwrap();
            let number = more[at].number + 1;
            more.insert(at + 1, Record { number, ..more[at] });
            is_refused(&groups.bare().table(), &with_tail(&more), 4, at as u32 + 2);
        }
    }
}

/// The sample of decks/: the deck that its records make, which was written by hand, and its note of them.
#[test]
fn sample() {
    let bytes = |name: &str| {
        let path = format!("{}/../decks/{name}", env!("CARGO_MANIFEST_DIR"));
        std::fs::read(path).unwrap()
    };
    let [deck, right] = ["bench.deck", "measured.deck"].map(|name| {
        let bytes = bytes(name);
        let mut table = vec![0; bytes.len() / 7];
        let end = bytes.len();
        assert_eq!(reference::read(&bytes, &mut table), (Answer::Done, 0, end));
        table
    });
    let laid = bytes("bench.records");
    let mut records: Vec<Record> = laid.chunks(RECORD_BYTES).map(Record::of).collect();
    records.pop();
    assert_eq!(with_tail(&records), laid);
    becomes(&deck, &records, &right);
    // As notes before the deck they are passed over.
    let noted = [laid.clone(), bytes("bench.deck")].concat();
    let mut table = vec![0; deck.len()];
    let (answer, start, _) = reference::read(&noted, &mut table);
    assert_eq!((answer, start), (Answer::Done, laid.len()));
    assert_eq!(table, deck);
}

/// A record's answer alone on the base: the fields of its card, or a refusal at it.
fn alone(record: Record) -> Result<[u32; 2], Answer> {
    let table = Groups::base().table();
    let (answer, second) = answer(&table, &with_tail(&[record]), ROOM);
    match answer {
        Answer::Done => Ok([second[38], second[39]]),
        _ => Err(answer),
    }
}

/// The value's field where it is right; of a film, beside a right other value.
fn fields(bits: u32) -> [Result<u32, Answer>; 4] {
    let one = 1f32.to_bits();
    [
        alone(Record::new(HEAT, 1, [bits, 0])).map(|[heat, _]| heat),
        alone(Record::new(FILM, 1, [bits, one])).map(|[film, _]| film),
        alone(Record::new(FILM, 1, [one, bits])).map(|[_, ambient]| ambient),
        alone(Record::new(HELD, 1, [bits, 0])).map(|[ticks, _]| ticks),
    ]
}

/// The ends of each range: the least and the greatest single that is right, and the next ones, which are 4.
#[test]
fn ends_of_ranges() {
    let [micro, milli, kelvin] = UNITS;
    let range = Err(refused(4, 1));
    for (at, unit, least, most) in [
        (0, micro, 1, 5_000_000),
        (1, milli, 1, 100_000),
        (2, kelvin, 0, TOP),
        (3, kelvin, 0, TOP),
    ] {
        // The greatest: nearer to `most` than the half above it.
        let mut high = single(f64::from(most) + 0.5, unit);
        while field(high, unit) > f64::from(most) {
            high -= 1;
        }
        assert_eq!(fields(high)[at], Ok(most));
        assert_eq!(fields(high + 1)[at], range);
        if least == 1 {
            let mut low = single(0.5, unit);
            while field(low, unit) == 0.0 {
                low += 1;
            }
            assert_eq!(fields(low)[at], Ok(1));
            assert_eq!(fields(low - 1)[at], range);
            for zero in [0, SIGN, 1, SIGN | 1, SIGN | low, SIGN | high] {
                assert_eq!(fields(zero)[at], range);
            }
        }
    }
    // A half of a tick below zero is -1; anything nearer to zero is 0.
    let half = (0.5f32 / 65_536.0).to_bits();
    for at in [2, 3] {
        assert_eq!(fields(half)[at], Ok(1));
        for zero in [0, SIGN, 1, SIGN | 1, half - 1, SIGN | (half - 1)] {
            assert_eq!(fields(zero)[at], Ok(0));
        }
        assert_eq!(fields(SIGN | half)[at], range);
        assert_eq!(fields(512f32.to_bits())[at], Ok(TOP));
        assert_eq!(fields(512f32.to_bits() + 1)[at], range);
    }
    for past in [f32::MAX, f32::MIN, 4_294.967_3, 1e10, -1e10] {
        assert!(fields(past.to_bits()).iter().all(|field| *field == range));
    }
}

/// All exact halves of µW and mW that are in range, some of ticks, and the singles on both sides.
#[test]
fn halves() {
    let mut met = [0; 4];
    for (unit, part, odds) in [
        (UNITS[0], 128.0, 640),
        (UNITS[1], 16.0, 1_600),
        (UNITS[2], 131_072.0, 4_000),
    ] {
        for odd in (1..odds).step_by(2) {
            let bits = ((f64::from(odd) / part) as f32).to_bits();
            let below = (f64::from(odd) / part * unit).floor();
            assert_eq!(f64::from(f32::from_bits(bits)) * unit, below + 0.5);
            for (near, right) in [
                (bits - 1, below),
                (bits, below + 1.0),
                (bits + 1, below + 1.0),
            ] {
                for (at, field) in fields(near).into_iter().enumerate() {
                    let own = [UNITS[0], UNITS[1], UNITS[2], UNITS[2]][at] == unit;
                    if let (true, Ok(field)) = (own, field) {
                        assert_eq!(f64::from(field), right);
                        met[at] += 1;
                    }
                }
            }
        }
    }
    assert_eq!(met, [960, 2_400, 6_000, 6_000]);
}

#[test]
fn not_finite() {
    for bits in [INFINITY, NAN, NAN_ONE, INFINITY | 0x7F_FFFF] {
        for bits in [bits, SIGN | bits] {
            for field in fields(bits) {
                assert_eq!(field, Err(refused(15, 1)));
            }
        }
    }
    assert!(fields(INFINITY - 1)
        .iter()
        .all(|field| *field == Err(refused(4, 1))));
}

const UNUSED: [u32; 8] = [
    SIGN,
    1,
    SIGN | 1,
    0x3F80_0000,
    INFINITY,
    NAN,
    NAN_ONE,
    SIGN | NAN,
];

#[test]
fn malformed() {
    let table = Groups::base().table();
    let at_once = |record: Record| is_refused(&table, &with_tail(&[record]), 16, 1);
    let one = 1f32.to_bits();
    for kind in [0, 4, 5, 255, 256, 512, 768, 257, u16::MAX] {
        // Whatever else it holds.
        at_once(Record::new(kind, 1, [one, 0]));
        at_once(Record::new(kind, 0, [0, 0]));
        at_once(Record::new(kind, u16::MAX, [NAN, NAN]));
    }
    for kind in [HEAT, HELD] {
        for filled in UNUSED {
            at_once(Record::new(kind, 1, [one, filled]));
            at_once(Record::new(kind, 0, [NAN, filled]));
        }
    }
}

/// Every field of the tail, after no record and after some.
#[test]
fn tails() {
    let table = Groups::base().table();
    let all = [
        Record::heat(1, 1.0),
        Record::film(1, 1.0, 1.0),
        Record::held(1, 1.0),
    ];
    for count in 0..=3 {
        let place = count as u32 + 1;
        let ends_in = |tail: Record| {
            let mut bytes = laid(&all[..count]);
            bytes.extend(tail.bytes());
            is_refused(&table, &bytes, 16, place);
        };
        let right = Record::tail(count as u16);
        for number in [0, 1, 2, 3, 4, 256 * count as u16 + 256, u16::MAX] {
            if usize::from(number) != count {
                ends_in(Record { number, ..right });
            }
        }
        for kind in [1, 2, 3, 4, 256, u16::MAX] {
            ends_in(Record { kind, ..right });
        }
        for filled in UNUSED {
            ends_in(Record {
                values: [filled, 0],
                ..right
            });
            ends_in(Record {
                values: [0, filled],
                ..right
            });
        }
        // No tail: what would be a right record stands last, and the tail in the middle is of no kind.
        if count > 0 {
            is_refused(&table, &laid(&all[..count]), 16, count as u32);
            let mut twice = with_tail(&all[..count]);
            twice.extend(Record::tail(count as u16 + 1).bytes());
            is_refused(&table, &twice, 16, place);
        }
    }
    becomes(&table, &[], &table);
}

#[test]
fn numbers_and_kinds() {
    let groups = sheet();
    let table = groups.table();
    let (elements, nodes) = (groups.elements.len() as u16, groups.nodes.len() as u16);
    let of = |kind: u16, number: u16| match kind {
        HEAT => Record::heat(number, 1.0),
        FILM => Record::film(number, 1.0, 1.0),
        _ => Record::held(number, 1.0),
    };
    for (kind, most) in [(HEAT, elements), (FILM, elements), (HELD, nodes)] {
        for number in [0, most + 1, 256, 257, u16::MAX] {
            is_refused(&table, &with_tail(&[of(kind, number)]), 4, 1);
        }
        for number in [1, most] {
            assert_eq!(
                answer(&table, &with_tail(&[of(kind, number)]), ROOM).0,
                Answer::Done
            );
        }
    }
    // Two records of any kinds and numbers.
    for first in 1..=3 {
        for second in 1..=3 {
            for (a, b) in [(4, 5), (5, 5), (5, 4), (1, 9), (9, 1)] {
                let records = [of(first, a), of(second, b)];
                if first < second || (first == second && a < b) {
                    becomes(&table, &records, &groups.measured(&records).table());
                } else {
                    is_refused(&table, &with_tail(&records), 4, 2);
                }
            }
        }
    }
    // Three: what counts is the one before, whose kind may be two up.
    let records = [of(HEAT, 5), of(HELD, 1), of(FILM, 9)];
    is_refused(&table, &with_tail(&records), 4, 3);
}

/// Heat on an E and on a V, a film on an E alone.
#[test]
fn on_solids() {
    let groups = Groups::two_solids().bare();
    let table = groups.table();
    for element in 1..=3 {
        let record = [Record::heat(element, 1.0)];
        becomes(&table, &record, &groups.measured(&record).table());
    }
    let record = [Record::film(1, 1.0, 1.0)];
    becomes(&table, &record, &groups.measured(&record).table());
    for element in [2, 3, 4] {
        is_refused(&table, &with_tail(&[Record::film(element, 1.0, 1.0)]), 4, 1);
    }
    // And where there is no E at all.
    let table = Groups::corner().table();
    is_refused(&table, &with_tail(&[Record::film(1, 1.0, 1.0)]), 4, 1);
}

#[test]
fn lengths() {
    let table = Groups::base().table();
    let right = with_tail(&[Record::heat(1, 1.0)]);
    for length in 0..60 {
        let mut bytes = right.clone();
        bytes.resize(length, 0);
        match length {
            24 => assert_eq!(answer(&table, &bytes, ROOM).0, Answer::Done),
            12 => is_refused(&table, &bytes, 16, 1),
            36 | 48 => is_refused(&table, &bytes, 16, 2),
            _ => is_refused(&table, &bytes, 1, 0),
        }
    }
    // 65,532 is the last in twelves; of its 5,461 records none but the first can be right, since T on one node can't rise.
    for (length, number, place) in [
        (65_520, 4, 2),
        (65_532, 4, 2),
        (65_536, 1, 0),
        (65_537, 1, 0),
        (65_544, 1, 0),
        (131_064, 1, 0),
    ] {
        let bytes: Vec<u8> = Record::held(1, 1.0)
            .bytes()
            .into_iter()
            .cycle()
            .take(length)
            .collect();
        is_refused(&table, &bytes, number, place);
    }
    // As many records as there can be, each but the first out of order.
    let kinds = vec![Record::heat(1, 1.0); 5_460];
    is_refused(&table, &with_tail(&kinds), 4, 2);
}

/// A deck with H, F or T: 13 at the first of them, also after G, whatever the records are.
#[test]
fn loads_already_there() {
    let full = sheet();
    for mask in 1..8 {
        for edges in [vec![], full.edges.clone()] {
            let mut groups = full.clone();
            groups.edges = edges;
            let mut place = (1 + 12 + groups.materials.len() + groups.elements.len() + 1) as u32;
            if mask & 1 != 0 {
                groups.heats = vec![[1, 1], [2, 2]];
            }
            if mask & 2 != 0 {
                groups.films = vec![[1, 1, 1], [2, 2, 2]];
            }
            if mask & 4 != 0 {
                groups.fixed = vec![[1, 1], [2, 2]];
            }
            if mask == 4 {
                place += groups.edges.len() as u32;
            }
            for records in [
                with_tail(&[]),
                with_tail(&[Record::heat(1, 1.0)]),
                vec![],
                vec![0; 13],
            ] {
                for room in [0, ROOM] {
                    let answer = answer(&groups.table(), &records, room).0;
                    assert_eq!(answer, refused(13, place));
                }
            }
        }
    }
}

/// The deck's own refusals come before all others: 13's cards in it, no records, no room.
#[test]
fn deck_first() {
    let right = Groups::one_of_each();
    let table = right.table();
    let rows = table.len() / 6;
    let decks = [
        (vec![], 1, 0),
        (table[1..].to_vec(), 1, 0),
        (vec![0; 6_402], 1, 0),
        (with(&table, rows - 1, 2, 4), 2, 0),
        (with(&table, 1, 0, M), 3, 2),
        (with(&table, 1, 1, 4_096), 4, 2),
        (with(&table, rows - 2, 1, 4), 4, rows as u32 - 1),
        (with(&table, rows - 2, 3, 1), 3, rows as u32 - 1),
    ];
    for (table, number, place) in decks {
        for records in [vec![], vec![1; 12], with_tail(&[])] {
            for room in [0, ROOM] {
                assert_eq!(answer(&table, &records, room).0, refused(number, place));
            }
        }
    }
}

/// 16, 15, 4 of one record; then the next record; the tail after them all; 9 last.
#[test]
fn in_turn() {
    let table = Groups::base().table();
    let one = 1f32.to_bits();
    let right = Record::heat(1, 1.0);
    let bad = [
        (16, Record::new(HEAT, 9, [NAN, 1])),
        (15, Record::new(FILM, 9, [0, INFINITY])),
        (15, Record::new(FILM, 9, [NAN, one])),
        (4, Record::new(HELD, 9, [one, 0])),
    ];
    for (number, record) in bad {
        for room in [0, ROOM] {
            let refuses = |records: &[u8], number: u8, place: u32| {
                assert_eq!(answer(&table, records, room).0, refused(number, place));
            };
            refuses(&laid(&[record, Record::tail(7)]), number, 1);
            refuses(&laid(&[right, record, right]), number, 2);
            for (_, other) in bad {
                refuses(&with_tail(&[record, other]), number, 1);
                refuses(&with_tail(&[right, record, other]), number, 2);
            }
            // A length not in twelves is told before any record.
            refuses(&laid(&[record])[..11], 1, 0);
        }
    }
    assert_eq!(
        answer(&table, &laid(&[right, Record::tail(2)]), 0).0,
        refused(16, 2)
    );
    assert_eq!(answer(&table, &with_tail(&[right]), 0).0, refused(9, 0));
}

/// Any records on any deck: what they become is a deck, and without its H, F and T the one before. Where all values are finite and
/// small enough for a card, it is refused by 4 just where a deck with those cards is, by 4 or for its letter.
#[test]
fn any_records() {
    let chance = &mut Chance::seeded(21);
    let mut met = [0; 17];
    for _ in 0..20_000 {
        let groups = Groups::wild(chance);
        let mut records = chance.records(&groups);
        if chance.one_in(3) {
            chance.spoil(&mut records);
        }
        let table = groups.bare().table();
        let (answer, second) = answer(&table, &with_tail(&records), ROOM);
        met[(answer.packed() & 255) as usize] += 1;
        let small = |bits: &u32| {
            let value = f32::from_bits(*bits);
            value.is_finite()
                && UNITS
                    .iter()
                    .all(|unit| (0.0..4e9).contains(&field(*bits, *unit)))
        };
        let wellformed = |record: &Record| {
            (1..=3).contains(&record.kind) && record.values[record.used()..].iter().all(|&v| v == 0)
        };
        if !records
            .iter()
            .all(|record| wellformed(record) && record.values.iter().all(small))
        {
            continue;
        }
        let (right, first) = in_their_order(&groups, &records);
        let mut bytes = vec![0; 40_000];
        match reference::write(&right, &mut bytes) {
            Answer::Done => {
                assert_eq!(answer, Answer::Done);
                let right = groups.measured(&records).table();
                assert_eq!(second[..right.len()], right);
            }
            Answer::Refused(refusal) => {
                assert!(refusal.number == 4 || refusal.number == 3);
                assert_eq!(answer, refused(4, refusal.place - first));
            }
        }
    }
    let unmet: Vec<usize> = [0, 4, 15, 16]
        .into_iter()
        .filter(|&at| met[at] < 200)
        .collect();
    assert!(unmet.is_empty(), "{met:?}");
}

/// The cards of the records, whose values are small, in the records' own order after the elements, with no G: a table, and the
/// number of cards before them.
fn in_their_order(groups: &Groups, records: &[Record]) -> (Vec<u32>, u32) {
    let mut bare = groups.bare();
    bare.edges.clear();
    let mut table = bare.table();
    let trailer = table.split_off(table.len() - 6);
    let first = (table.len() / 6) as u32;
    for record in records {
        let one = bare.measured(&[*record]);
        let mut cards = one
            .heats
            .iter()
            .map(|fields| card(H, fields))
            .collect::<Vec<_>>();
        cards.extend(one.films.iter().map(|fields| card(F, fields)));
        cards.extend(one.fixed.iter().map(|fields| card(T, fields)));
        table.extend(cards.concat());
    }
    let more = records.len() as u32;
    table.extend([
        Z,
        trailer[1] + 42 * more,
        trailer[2],
        trailer[3],
        trailer[4],
        more,
    ]);
    (table, first)
}
