//! Each refusal by hand, with the order among them and what stays unwritten.

mod common;

use common::*;
use reference::{read, write, Answer, Ran, Refusal, Stepped};

/// A base with one of each load.
fn loaded() -> Groups {
    let mut groups = Groups::base();
    groups.nodes.push([100, 100]);
    groups.elements.push([2, 4, 3, 1, 1_000]);
    groups.heats = vec![[1, 3], [2, 4]];
    groups.films = vec![[1, 500, 1_000_000], [2, 600, 2_000_000]];
    groups.edges = vec![[1, 2, 700, 1_000_000, 900], [2, 4, 800, 2_000_000, 950]];
    groups.fixed = vec![[3, 5_000_000], [4, 6_000_000]];
    groups
}

#[test]
fn r1_length() {
    let deck = bytes_of(&loaded().table());
    bytes_refused(b"", 1, 0);
    bytes_refused(&deck[deck.len() - 41..], 1, 0);
    bytes_refused(&[vec![b' '; 65_537 - deck.len()], deck].concat(), 1, 0);
    table_refused(&[], 1, 0);
    table_refused(&[0; 6], 1, 0);
    table_refused(&[0; 13], 1, 0);
    table_refused(&[0; 6_395], 1, 0);
    table_refused(&[0; 6_402], 1, 0);
    // The ends of the lengths allowed come to the trailer.
    table_refused(&[0; 12], 2, 0);
    table_refused(&[0; 6_396], 2, 0);
    bytes_refused(&[b' '; 42], 2, 0);
    bytes_refused(&[b' '; 65_536], 2, 0);
}

#[test]
fn r2_trailer() {
    let table = loaded().table();
    let last = table.len() - 6;
    for field in 0..6 {
        for wrong in [
            table[last + field] + 1,
            table[last + field] - 1,
            0,
            u32::MAX,
        ] {
            let mut table = table.clone();
            table[last + field] = wrong;
            // A trailer that agrees with itself but not with the rows is wrong too.
            let sum: u64 = table[last + 2..]
                .iter()
                .map(|&count| u64::from(count))
                .sum();
            table_refused(&table, 2, 0);
            table[last + 1] = (42 * (1 + sum)) as u32;
            if field != 1 {
                table_refused(&table, 2, 0);
            }
        }
    }
    // Counts out of bounds that agree with the rows.
    let mut few = Groups::base();
    few.nodes.pop();
    table_refused(&few.table(), 2, 0);
    let mut none = Groups::base();
    none.elements.pop();
    table_refused(&none.table(), 2, 0);
    let mut many = Groups::base();
    many.nodes = vec![[0, 0]; 97];
    table_refused(&many.table(), 2, 0);
    let mut many = Groups::base();
    many.heats = vec![[1, 1]; 801];
    table_refused(&many.table(), 2, 0);

    let bytes = bytes_of(&table);
    bytes_refused(&bytes[1..], 2, 0);
    bytes_refused(&bytes[..bytes.len() - 1], 2, 0);
    let at = bytes.len() - 42;
    for (column, wrong) in [
        (0, b'Y'),
        (1, b'0'),
        (1, b'-'),
        (8, b'x'),
        (16, b' '),
        (41, b' '),
    ] {
        let mut bytes = bytes.clone();
        bytes[at + column] = wrong;
        bytes_refused(&bytes, 2, 0);
    }
    // The trailer is judged before any card.
    let mut both = table.clone();
    both[0] = 0;
    both[last] = 0;
    table_refused(&both, 2, 0);
}

#[test]
fn r3_form() {
    let table = loaded().table();
    let rows = table.len() / 6;
    for row in 0..rows - 1 {
        for letter in [
            D,
            N,
            M,
            E,
            V,
            H,
            F,
            G,
            T,
            Z,
            0,
            table[6 * row] + 256,
            table[6 * row] + 32,
            u32::MAX,
        ] {
            let before = if row == 0 { 0 } else { table[6 * row - 6] };
            // Another letter of the same width may still stand here, as an H after an E.
            let stands = matches!(
                (before, letter),
                (E | H, H) | (E | H | F, F) | (E | H | F | G, G) | (E | H | F | G | T, T)
            ) && row >= 8;
            // A V may stand where an E may, and then is judged by its fields.
            let element = letter == V && table[6 * row] == E;
            if letter != table[6 * row] && !stands && !element {
                let mut table = table.clone();
                table[6 * row] = letter;
                table_refused(&table, 3, row as u32 + 1);
            }
        }
        // An N's third and an M's fourth are used in solid decks, 4 here, and an M's fifth in all.
        let used = match table[6 * row] {
            D | N | F => 3,
            E | M | G => 5,
            _ => 2,
        };
        for field in used + 1..6 {
            let mut table = table.clone();
            table[6 * row + field] = 1;
            table_refused(&table, 3, row as u32 + 1);
            let mut bytes = bytes_of(&loaded().table());
            bytes[42 * row + 8 * field] = b'0';
            bytes_refused(&bytes, 3, row as u32 + 1);
        }
        for (column, wrong) in [
            (0, b'Q'),
            (1, b'0'),
            (8, b' '),
            (8, b'A'),
            (7, b'-'),
            (16, b'\t'),
            (41, b'\r'),
        ] {
            let mut bytes = bytes_of(&loaded().table());
            bytes[42 * row + column] = wrong;
            bytes_refused(&bytes, 3, row as u32 + 1);
        }
    }
    // H after F, F after G, G after T.
    let mut groups = loaded();
    table_refused(&swapped(&groups.table(), 9, 10), 3, 11);
    groups.films.pop();
    table_refused(&swapped(&groups.table(), 10, 11), 3, 12);
    groups.edges.pop();
    table_refused(&swapped(&groups.table(), 11, 12), 3, 13);
    // A leading zero and a number broken by a blank.
    let bytes = bytes_of(&loaded().table());
    for spelled in [
        &b"    0100"[..],
        b"    1 00",
        b"100     ",
        b"   +1000",
        b"00000000",
    ] {
        let mut bytes = bytes.clone();
        bytes[1..1 + spelled.len()].copy_from_slice(spelled);
        bytes_refused(&bytes, 3, 1);
    }
}

#[test]
fn r4_range() {
    let table = loaded().table();
    // Row, field, least and most.
    let ranges = [
        (0, 1, 1, 60_000),
        (0, 2, 0, TOP),
        (0, 3, 1, 100_000),
        (1, 1, 0, 4_095),
        (1, 2, 0, 4_095),
        (5, 1, 1, 500_000),
        (5, 2, 1, 500_000),
        (5, 3, 1, 5_000),
        (6, 1, 1, 4),
        (6, 2, 1, 4),
        (6, 3, 1, 4),
        (6, 4, 1, 1),
        (6, 5, 1, 4_000),
        (8, 2, 1, 5_000_000),
        (9, 1, 2, 2),
        (10, 2, 1, 100_000),
        (10, 3, 0, TOP),
        (11, 1, 2, 2),
        (12, 1, 1, 1),
        (12, 2, 2, 4),
        (13, 1, 1, 3),
        (13, 2, 3, 4),
        (13, 3, 1, 100_000),
        (13, 4, 0, TOP),
        (13, 5, 1, 4_000),
        (14, 1, 1, 3),
        (15, 1, 4, 4),
        (15, 2, 0, TOP),
    ];
    for (row, field, least, most) in ranges {
        for (value, good) in [
            (least, true),
            (most, true),
            (least.wrapping_sub(1), false),
            (most + 1, false),
            (u32::MAX, false),
        ] {
            let table = with(&table, row, field, value);
            if good {
                accepts(&table);
                continue;
            }
            // The first T at the node of the second, which then does not rise.
            let place = row as u32 + 1 + u32::from((row, field) == (14, 1) && value == 4);
            table_refused(&table, 4, place);
            if value <= 99_999_999 {
                let columns = format!("{value:8}");
                let bytes = put(&bytes_of(&loaded().table()), row, field, columns.as_bytes());
                bytes_refused(&bytes, 4, place);
            }
        }
    }
    // Of each card 3, then 4, then the next card.
    let mut two = table.clone();
    two[6] = H;
    two[2] = TOP + 1;
    table_refused(&two, 4, 1);
    two[4] = 1;
    table_refused(&two, 3, 1);
    // Rising starts again in the next group: loaded() has element 1 in H and in F.
    assert_eq!(table[6 * 9 + 1], 2);
    assert_eq!(table[6 * 10 + 1], 1);
}

/// A deck of twenty nodes in a line, some pairs of them edges.
fn edged(pairs: &[(u32, u32)]) -> Groups {
    let mut groups = Groups::base();
    groups.nodes.extend((1..=17).map(|x| [x, 0]));
    groups.edges = pairs
        .iter()
        .map(|&(low, high)| [low, high, 9, 9, 9])
        .collect();
    groups
}

#[test]
fn pairs_of_nodes() {
    let first = 24;
    for (pairs, wrong) in [
        (vec![(1, 2)], None),
        (vec![(1, 1)], Some(0)),
        (vec![(2, 1)], Some(0)),
        (vec![(20, 20)], Some(0)),
        (vec![(20, 21)], Some(0)),
        (vec![(0, 1)], Some(0)),
        (vec![(19, 20)], None),
        (vec![(1, 2), (1, 3), (1, 20)], None),
        (vec![(1, 3), (1, 2)], Some(1)),
        (vec![(1, 3), (1, 3)], Some(1)),
        (vec![(1, 20), (2, 3)], None),
        (vec![(2, 3), (1, 20)], Some(1)),
        (vec![(1, 2), (2, 3), (2, 3)], Some(2)),
    ] {
        let table = edged(&pairs).table();
        match wrong {
            None => assert_eq!(bytes_of(&table).len(), 7 * table.len()),
            Some(at) => table_refused(&table, 4, first + at),
        }
    }
}

#[test]
fn the_161st_edge() {
    let pairs: Vec<(u32, u32)> = (1..20)
        .flat_map(|low| (low + 1..=20).map(move |high| (low, high)))
        .collect();
    let mut groups = edged(&pairs[..160]);
    groups.fixed.push([1, 9]);
    let table = groups.table();
    assert_eq!(bytes_of(&table).len(), 7 * table.len());
    // Its letter is what its place doesn't allow, whatever its fields are.
    for (low, high, film) in [(pairs[160].0, pairs[160].1, 9), (1, 1, 9), (20, 21, 0)] {
        groups.edges.push([low, high, film, 9, 9]);
        table_refused(&groups.table(), 3, 24 + 160);
        groups.edges.pop();
    }
    // A card before it comes first.
    let mut two = groups.clone();
    two.edges.extend([[1, 1, 9, 9, 9]; 2]);
    two.edges[159][2] = 0;
    table_refused(&two.table(), 4, 24 + 159);
}

#[test]
fn the_largest_deck() {
    let groups = Groups::largest(&mut Chance::seeded(14));
    let table = groups.table();
    assert_eq!(table.len(), 6_396);
    let mut lent = Lent::built(table.clone());
    assert!(matches!(lent.step(), Stepped::Settled(_)));
    assert_eq!(bytes_of(&table).len(), 44_772);
    accepts(&table);
    // One row more, whatever it is, has no trailer that may say so.
    let mut longer = groups.clone();
    longer.fixed.push([97, 9]);
    table_refused(&longer.table(), 1, 0);
}

#[test]
fn r5_and_r6_elements() {
    let mut groups = loaded();
    groups.elements[1] = [2, 2, 3, 1, 1_000];
    build_refused(&groups, 5, 2);
    groups.materials[0][2] = 5_000;
    groups.d[0] = 1;
    // Element 1's 6 comes before element 2's 5.
    build_refused(&groups, 6, 1);
    groups.elements[0][2] = 1;
    build_refused(&groups, 5, 1);

    // A pair's conductance. b = (-1, 1, 0), c = (-32, 0, 32): pair 13 is
    // -t·250,000·1,024/(2,000·32), or -4,000,000 with t = 1,000.
    let mut edge = Groups::base();
    edge.nodes = vec![[0, 0], [32, 0], [0, 1]];
    edge.materials[0] = [1, 250_000, 5_000];
    assert_eq!(Lent::built(edge.table()).a[3], -4_000_000 + 17);
    // One more: 903·276,855·1,024/64,000 is 4,000,001.04.
    edge.materials[0][1] = 276_855;
    edge.elements[0][4] = 903;
    build_refused(&edge, 6, 1);
    // And of u, S being 97·98: 1,885·2,143·9,506/9,600 is 4,000,001.02.
    let mut full = Groups::base();
    full.d[0] = 1;
    full.nodes = vec![[0, 0], [97, 0], [0, 98]];
    full.materials[0][2] = 1_885;
    full.elements[0][4] = 2_143;
    build_refused(&full, 6, 1);
    // Of the other sign: the corner between is blunt.
    let mut blunt = Groups::base();
    blunt.nodes = vec![[200, 0], [100, 10], [0, 0]];
    blunt.materials[0] = [500_000, 500_000, 1];
    blunt.elements[0][4] = 4_000;
    build_refused(&blunt, 6, 1);
}

#[test]
fn r7_and_r8_factor() {
    // A node of no element: its row is empty. A fixed one has 2^20 there.
    let mut groups = Groups::base();
    groups.nodes.insert(1, [7, 7]);
    groups.elements[0] = [1, 3, 4, 1, 1_000];
    build_refused(&groups, 7, 2);
    groups.fixed.push([2, 5]);
    assert_eq!(Lent::built(groups.table()).factor[1..3], [0, 1 << 20]);
    // l past its bound.
    build_refused(&Groups::leaning(), 8, 2);
}

#[test]
fn r7_and_r8_of_replacements() {
    let base = Lent::built(loaded().table());
    let thicker = card(E, &[1, 2, 3, 1, 1_001]);
    // The diagonal of a foreign A under the change: 7 at the row, work zeroed, all else as before.
    let mut lent = base.clone();
    lent.a[2] = -1_000_000;
    lent.answers(7, thicker, refused(7, 2));
    // l past its bound: a large number over d(1).
    let mut lent = base.clone();
    lent.a[1] = 1 << 32;
    lent.answers(7, thicker, refused(8, 2));
}

/// At a row's end under 16, and past the bound on w: at -2^38 it is 7, at one less 8. With the rows above it kept, w(3,1) = 2^30,
/// w(3,2) = -16·2^30, and what is taken from A(3,3) is w(3,1)²/d(1) + w(3,2)²/d(2) = 2^22 + 2^38.
#[test]
fn r8_before_r7() {
    let mut groups = Groups::base();
    groups.nodes.extend([[100, 100], [0, 200]]);
    groups.elements[0] = [4, 5, 3, 1, 1_000];
    for (more, number) in [(0, 7), (-1, 8)] {
        let mut lent = Lent::new(groups.table());
        for matrix in [&mut lent.p, &mut lent.a, &mut lent.factor] {
            matrix[..15].fill(0);
        }
        lent.a[3] = 1 << 30;
        lent.a[5] = (1 << 22) + more;
        lent.factor[..3].copy_from_slice(&[1 << 38, 1 << 24, 1 << 30]);
        for end in [5, 9, 14] {
            lent.factor[end] = 16;
        }
        lent.answers(8, card(E, &[4, 5, 3, 1, 1_000]), refused(number, 3));
    }
}

#[test]
fn r9_short() {
    let own = Lent::built(loaded().table());
    let length = triangle(4);
    // Cuts p, a, factor, work, the temperatures or the carried residuals to what is asked, less some.
    let cut = |slice: usize, less: usize| {
        let mut lent = own.clone();
        match slice {
            0 => lent.p.truncate(length - less),
            1 => lent.a.truncate(length - less),
            2 => lent.factor.truncate(length - less),
            3 => lent.work.truncate(length - less),
            4 => lent.temperatures.truncate(4 - less),
            _ => lent.carried.truncate(4 - less),
        }
        lent
    };
    let cards = [
        (7, card(E, &[1, 2, 3, 1, 2_000])),
        (9, card(H, &[1, 9])),
        (11, card(F, &[1, 9, 9])),
        (13, card(G, &[1, 2, 9, 9, 9])),
        (15, card(T, &[3, 9])),
    ];
    for slice in 0..6 {
        // Just long enough.
        for (number, new) in cards {
            assert_eq!(cut(slice, 0).replace(number, new), Answer::Done);
        }
        assert_eq!(cut(slice, 0).build(), Answer::Done);
        assert!(matches!(cut(slice, 0).step(), Stepped::Settled(_)));
        // One too short. Build and replace don't ask for temperatures and residuals, nor step for work.
        let before = cut(slice, 1);
        let mut lent = before.clone();
        if slice < 4 {
            for (number, new) in cards {
                assert_eq!(lent.replace(number, new), refused(9, 0));
            }
            assert_eq!(lent.build(), refused(9, 0));
        }
        if slice != 3 {
            assert_eq!(lent.step(), step_refused(9, 0));
            assert_eq!(
                lent.run(),
                Ran::Refused(Refusal {
                    number: 9,
                    place: 0
                })
            );
        }
        assert_eq!(lent, before);
    }
    // Bytes and the reader's table; 9 comes after the cards.
    let table = loaded().table();
    let bytes = bytes_of(&table);
    let mut short = vec![9; bytes.len() - 1];
    assert_eq!(write(&table, &mut short), refused(9, 0));
    assert_eq!(short, vec![9; bytes.len() - 1]);
    for length in [0, 1, table.len() - 1] {
        let mut short = vec![9; length];
        assert_eq!(read(&bytes, &mut short), (refused(9, 0), 0, 0));
        assert_eq!(short, vec![9; length]);
        let mut wrong = bytes.clone();
        wrong[0] = b'N';
        assert_eq!(read(&wrong, &mut short), (refused(3, 1), 0, 0));
    }
    // 9 before 5.
    let mut flat = loaded();
    flat.elements[0] = [1, 1, 1, 1, 1];
    let mut lent = Lent::new(flat.table());
    lent.work.truncate(length - 1);
    assert_eq!(lent.build(), refused(9, 0));
}

#[test]
fn r10_lent() {
    let own = Lent::built(loaded().table());
    let both = |before: &Lent, good: bool| {
        for (number, new) in [
            (9, card(H, &[1, 9])),
            (15, card(T, &[3, 9])),
            (13, card(G, &[1, 2, 700, 1_000_000, 900])),
            (7, card(E, &[1, 2, 3, 1, 1_000])),
        ] {
            let mut lent = before.clone();
            let answer = lent.replace(number, new);
            if good {
                assert_ne!(answer, refused(10, 0));
            } else {
                assert_eq!(answer, refused(10, 0));
                assert_eq!(lent, *before);
            }
        }
        let mut lent = before.clone();
        assert_eq!(lent.step() == step_refused(10, 0), !good);
        assert!(good || lent == *before);
        // A build has no 10.
        assert_eq!(lent.build(), Answer::Done);
    };
    // Row 3 has entries at 3, 4, 5 and, below, at 8: exactly 2^33, then one more, by either sign.
    for which in 0..2 {
        for at in [3, 4, 5, 8] {
            for sign in [1, -1] {
                let mut lent = own.clone();
                lent.temperatures[..4].fill(0);
                let matrix = if which == 0 { &mut lent.p } else { &mut lent.a };
                matrix[..10].fill(0);
                for i in [3, 4, 5, 8] {
                    matrix[i] = if i == at { sign * ((1 << 33) - 3) } else { -1 };
                }
                both(&lent, true);
                let matrix = if which == 0 { &mut lent.p } else { &mut lent.a };
                matrix[at] += sign;
                both(&lent, false);
            }
        }
        for wrong in [i64::MIN, i64::MAX] {
            for at in 0..10 {
                let mut lent = own.clone();
                let matrix = if which == 0 { &mut lent.p } else { &mut lent.a };
                matrix[at] = wrong;
                both(&lent, false);
            }
        }
    }
    for (at, good, bad) in [
        (
            1,
            vec![1 << 24, -(1 << 24)],
            vec![(1 << 24) + 1, -(1 << 24) - 1, i64::MIN, i64::MAX],
        ),
        (
            9,
            vec![16, 1 << 38],
            vec![15, (1 << 38) + 1, 0, -16, i64::MIN, i64::MAX],
        ),
    ] {
        for (values, fine) in [(good, true), (bad, false)] {
            for value in values {
                let mut lent = own.clone();
                lent.factor[at] = value;
                both(&lent, fine);
            }
        }
    }
}

#[test]
fn r11_scale() {
    let own = Lent::built(Groups::base().table());
    for (temperatures, place) in [
        ([0, i64::from(TOP) + 1, -1], 2),
        ([0, 0, -1], 3),
        ([i64::MIN, i64::MAX, 0], 1),
    ] {
        let mut before = own.clone();
        before.temperatures[..3].copy_from_slice(&temperatures);
        let mut lent = before.clone();
        assert_eq!(lent.step(), step_refused(11, place));
        assert_eq!(lent.run(), Ran::Refused(Refusal { number: 11, place }));
        assert_eq!(lent, before);
    }
    // 10 before 11.
    let mut lent = own.clone();
    lent.temperatures[0] = -1;
    lent.p[0] = i64::MIN;
    assert_eq!(lent.step(), step_refused(10, 0));
    // New temperatures: seven ticks up are too many, six ticks below the top.
    let mut groups = Groups::base();
    groups.heats.push([1, 3]);
    for (start, answer) in [
        (TOP - 7, Stepped::Settled(1)),
        (TOP - 6, step_refused(11, 1)),
    ] {
        groups.d[1] = start;
        let before = Lent::built(groups.table());
        let mut lent = before.clone();
        assert_eq!(lent.step(), answer);
        assert_eq!(lent == before, start == TOP - 6);
    }
    // A run keeps the temperatures and the residuals of its last accepted step: the third would be 20 ticks up.
    groups.d = [1_000, TOP - 19, 3];
    let mut lent = Lent::built(groups.table());
    assert_eq!(
        lent.run(),
        Ran::Refused(Refusal {
            number: 11,
            place: 1
        })
    );
    let left = i64::from(TOP) - 6;
    assert_eq!(lent.temperatures, [left, left, left, MARK, MARK, MARK]);
    assert_eq!(lent.carried, [1_072, 1_072, 1_072, MARK, MARK, MARK]);
    groups.d[2] = 2;
    assert_eq!(Lent::built(groups.table()).run(), Ran::Done(2));
}

#[test]
fn r8_and_r12_of_steps() {
    // d of its own factor is thousands: with d = 16 the first x is far too great.
    let mut groups = Groups::base();
    groups.heats.push([1, 5_000_000]);
    let mut before = Lent::built(groups.table());
    before.factor[..6].copy_from_slice(&[16, 0, 16, 0, 0, 16]);
    let mut lent = before.clone();
    // Back substitution meets the last row first.
    assert_eq!(lent.step(), step_refused(8, 3));
    assert_eq!(lent, before);
    // y: l = 2^24 over a right side of 2^36.7 and more.
    let mut steep = before.clone();
    steep.factor[1] = 1 << 24;
    steep.factor[4] = 1 << 24;
    let big = 1 << 32;
    steep.p[..6].copy_from_slice(&[big, 0, big, 0, 0, big]);
    steep.temperatures[..3].copy_from_slice(&[33_000_000, 0, 0]);
    let mut lent = steep.clone();
    assert_eq!(lent.step(), step_refused(8, 1));
    assert_eq!(lent, steep);
    // With d so great that nothing moves, the first row is never settled.
    let mut still = before.clone();
    still.factor[..6].copy_from_slice(&[1 << 38, 0, 1 << 38, 0, 0, 1 << 38]);
    let mut lent = still.clone();
    assert_eq!(lent.step(), step_refused(12, 1));
    assert_eq!(lent, still);
    // A settled row is not the place of a 12: here the fixed node 3 is.
    let mut groups = Groups::base();
    groups.fixed.push([3, 19_660_802]);
    let mut far = Lent::built(groups.table());
    far.factor[..6].copy_from_slice(&[1 << 38, 0, 1 << 38, 0, 0, 1 << 38]);
    let mut lent = far.clone();
    assert_eq!(lent.step(), step_refused(12, 3));
    assert_eq!(lent, far);
    // One tick off is within a fixed row's 2^20.
    far.table[6 * 6 + 2] = 19_660_801;
    assert_eq!(far.step(), Stepped::Settled(1));
    assert_eq!(far.temperatures[2], 19_660_800);
}

#[test]
fn r13_replacement() {
    let own = Lent::built(loaded().table());
    // 1 D, 2-5 N, 6 M, 7-8 E, 9-10 H, 11-12 F, 13-14 G, 15-16 T, 17 Z.
    own.answers(9, card(H, &[1, 9]), Answer::Done);
    for number in [0, 1, 2, 6, 7, 10, 11, 13, 15, 17, 18, u32::MAX] {
        own.answers(number, card(H, &[1, 9]), refused(13, number));
    }
    let edge = card(G, &[1, 2, 9, 9, 9]);
    own.answers(13, edge, Answer::Done);
    for number in [0, 1, 2, 6, 7, 9, 11, 14, 15, 17, 18, u32::MAX] {
        own.answers(number, edge, refused(13, number));
    }
    own.answers(9, card(H, &[2, 9]), refused(13, 9));
    own.answers(11, card(F, &[2, 9, 9]), refused(13, 11));
    own.answers(13, card(G, &[1, 3, 9, 9, 9]), refused(13, 13));
    own.answers(13, card(G, &[2, 4, 9, 9, 9]), refused(13, 13));
    own.answers(13, card(G, &[2, 1, 9, 9, 9]), refused(13, 13));
    own.answers(13, card(G, &[2, 2, 9, 9, 9]), refused(13, 13));
    own.answers(15, card(T, &[4, 9]), refused(13, 15));
    own.answers(7, card(E, &[2, 3, 1, 1, 1_000]), refused(13, 7));
    own.answers(7, card(E, &[1, 3, 2, 1, 1_000]), refused(13, 7));
    // The very card itself, of the letters that may not be replaced.
    for number in [1, 2, 6, 17] {
        let at = 6 * (number as usize - 1);
        let mut same = [0; 6];
        same.copy_from_slice(&own.table[at..at + 6]);
        own.answers(number, same, refused(13, number));
    }
    // With a z or a kz too, or a V, where there is none.
    for number in [0, 2, 6, 7, 17, u32::MAX] {
        own.answers(number, [N, 0, 0, 1, 0, 0], refused(13, number));
        own.answers(number, [M, 1_000, 1_000, 2_400, 1, 0], refused(13, number));
        own.answers(number, [V, 1, 2, 3, 4, 1], refused(13, number));
    }
    // 3 comes first, wherever it is put.
    for number in [0, 9, 17, u32::MAX] {
        own.answers(number, [0; 6], refused(3, number));
        own.answers(number, [u32::MAX; 6], refused(3, number));
        own.answers(number, [H, 1, 9, 0, 0, 1], refused(3, number));
        own.answers(number, [N, 1, 9, 1, 1, 0], refused(3, number));
    }
    // Every field of an M is used.
    own.answers(5, [M, 1, 9, 1, 1, 1], refused(13, 5));
    // 13 before 4, and 4 at the number asked for.
    own.answers(9, card(H, &[2, 0]), refused(13, 9));
    own.answers(9, card(H, &[1, 0]), refused(4, 9));
    own.answers(9, card(H, &[1, 5_000_001]), refused(4, 9));
    own.answers(11, card(F, &[1, 0, 9]), refused(4, 11));
    own.answers(11, card(F, &[1, 1, TOP + 1]), refused(4, 11));
    own.answers(13, card(G, &[1, 2, 0, 9, 9]), refused(4, 13));
    own.answers(13, card(G, &[1, 2, 100_001, 9, 9]), refused(4, 13));
    own.answers(13, card(G, &[1, 2, 9, TOP + 1, 9]), refused(4, 13));
    own.answers(13, card(G, &[1, 2, 9, 9, 0]), refused(4, 13));
    own.answers(13, card(G, &[1, 2, 9, 9, 4_001]), refused(4, 13));
    own.answers(15, card(T, &[3, TOP + 1]), refused(4, 15));
    own.answers(7, card(E, &[1, 2, 3, 2, 1_000]), refused(4, 7));
    own.answers(7, card(E, &[1, 2, 3, 1, 0]), refused(4, 7));
    // 5 and 6 of the element that an F names, which no build has judged.
    let mut flat = loaded();
    flat.elements[1] = [2, 3, 3, 1, 1_000];
    let mut lent = own.clone();
    lent.table = flat.table();
    let before = lent.clone();
    assert_eq!(lent.replace(12, card(F, &[2, 9, 9])), refused(5, 2));
    assert_eq!(lent.replace(8, card(E, &[2, 3, 3, 1, 9])), refused(5, 2));
    assert_eq!(lent, before);
    let mut stiff = loaded();
    stiff.d[0] = 1;
    stiff.materials[0][2] = 5_000;
    lent.table = stiff.table();
    assert_eq!(lent.replace(12, card(F, &[2, 9, 9])), refused(6, 2));
    assert_eq!(
        lent.replace(8, card(E, &[2, 4, 3, 1, 1_000])),
        refused(6, 2)
    );
    // The old form is not tested for 6.
    lent.a[..10].fill(0);
    let answer = lent.replace(8, card(E, &[2, 4, 3, 1, 1]));
    assert_ne!(answer, refused(6, 2));
    // A G judges no element, flat or stiff.
    for groups in [&flat, &stiff] {
        lent = own.clone();
        lent.table = groups.table();
        assert_eq!(lent.replace(13, edge), Answer::Done);
        assert_eq!(lent.p, own.p);
    }
    // H and T write nothing but the card.
    let mut lent = own.clone();
    lent.work.fill(MARK);
    let mut after = lent.clone();
    after.table[6 * 8 + 2] = 9;
    assert_eq!(lent.replace(9, card(H, &[1, 9])), Answer::Done);
    assert_eq!(lent, after);
    after.table[6 * 14 + 2] = 9;
    assert_eq!(lent.replace(15, card(T, &[3, 9])), Answer::Done);
    assert_eq!(lent, after);
}

#[test]
fn packed_answers() {
    assert_eq!(Answer::Done.packed(), 0);
    assert_eq!(refused(8, 2).packed(), 8 + 65_536 * 2);
    assert_eq!(refused(13, u32::MAX).packed(), 13 + 65_536 * 4_294_967_295);
    assert_eq!(Stepped::Settled(3).packed(), 768);
    assert_eq!(step_refused(12, 96).packed(), 12 + 65_536 * 96);
}
