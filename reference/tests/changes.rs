//! Changes during the run: request [9].

mod common;

use common::*;
use reference::{Answer, Ran, Refusal};

fn run_refused(number: u8, place: u32) -> Ran {
    Ran::Refused(Refusal { number, place })
}

/// The base heated by 3 µW, with so many steps and those changes: D, three N, M, E, H, C.., Z.
fn heated(steps: u32, changes: &[[u32; 5]]) -> Groups {
    let mut groups = Groups::base();
    groups.d[2] = steps;
    groups.heats.push([1, 3]);
    groups.changes = changes.to_vec();
    groups
}

/// One of each with so many steps and those changes: D, three N, M, E, H, F, G, T, C.., Z. Its first C is card 11.
fn each(steps: u32, changes: &[[u32; 5]]) -> Groups {
    let mut groups = Groups::one_of_each();
    groups.d[2] = steps;
    groups.changes = changes.to_vec();
    groups
}

/// P6 by hand: a row of A sums to 10,000 and a load of 3 µW is 65,536 a node, so that the first step is 7 ticks and leaves -4,464.
#[test]
fn a_heat_that_changes() {
    // Ten times the heat, from the second step on: 655,360 - 4,464 is 65 ticks and 896; 655,360 + 896 is 66 ticks less 3,744.
    let second = heated(3, &[[2, H, 1, 30, 0]]);
    // From the first: 655,360 is 66 ticks less 4,640; 650,720 is 65 ticks and 720; 656,080 is 66 ticks less 3,920.
    let first = heated(3, &[[1, H, 1, 30, 0]]);
    // In the last step alone: 65,536 - 4,464 is 6 ticks and 1,072; 655,360 + 1,072 is 66 ticks less 3,568.
    let last = heated(3, &[[3, H, 1, 30, 0]]);
    // Never: 65,536 + 1,072 is 7 ticks less 3,392.
    let never = heated(3, &[[4, H, 1, 30, 0]]);
    for (groups, ticks, residual, heat) in [
        (second, 7 + 65 + 66, -3_744, 30),
        (first, 66 + 65 + 66, -3_920, 30),
        (last, 7 + 6 + 66, -3_568, 30),
        (never, 7 + 6 + 7, -3_392, 3),
    ] {
        let mut lent = KeptLent::built(groups.table());
        let built = lent.clone();
        assert_eq!(lent.run(), Ran::Done(3));
        assert_eq!(lent.temperatures[..3], [19_660_800 + ticks; 3]);
        assert_eq!(lent.carried[..3], [residual; 3]);
        assert_eq!(lent.table[6 * 6 + 2], heat);
        // Nothing else is written: an H asks for no matrix.
        lent.temperatures.clone_from(&built.temperatures);
        lent.carried.clone_from(&built.carried);
        lent.table.clone_from(&built.table);
        assert_eq!(lent, built);
    }
}

/// P12: the thickness doubled in the second step.
#[test]
fn an_element_that_changes() {
    let mut groups = heated(2, &[[2, E, 1, 1, 2_000]]);
    let mut lent = Lent::built(groups.table());
    assert_eq!(lent.run(), Ran::Done(2));
    assert_eq!(lent.a[..6], [12_000, 4_000, 11_000, 4_000, 5_000, 11_000]);
    // A row sums to 20,000 now, and 65,536 - 4,464 is 3 ticks and 1,072.
    assert_eq!(lent.temperatures[..3], [19_660_800 + 7 + 3; 3]);
    assert_eq!(lent.carried[..3], [1_072; 3]);
    groups.elements[0][4] = 2_000;
    let fresh = Lent::built(groups.table());
    assert_eq!(
        [&lent.p, &lent.a, &lent.factor],
        [&fresh.p, &fresh.a, &fresh.factor]
    );
    assert_eq!(lent.table, fresh.table);
    assert_eq!(lent.work, fresh.work);
}

/// A node that is held elsewhere goes there in that step; a film's ambient is of its loads alone.
#[test]
fn a_node_and_a_film_that_change() {
    let groups = each(
        4,
        &[
            [2, T, 3, 19_500_000, 0],
            [3, F, 1, 480, 0],
            [4, F, 1, 100_000, 0],
        ],
    );
    let mut lent = KeptLent::built(groups.table());
    let built = lent.clone();
    let mut held = vec![];
    let mut hand = lent.clone();
    for steps in 1..=4 {
        let mut cut = groups.clone();
        cut.d[2] = steps;
        let mut lent = KeptLent::built(cut.table());
        assert_eq!(lent.run(), Ran::Done(steps));
        held.push(lent.temperatures[2]);
        // The film's ambient moves no matrix, its film does.
        assert_eq!(lent.a == built.a, steps < 4);
    }
    assert_eq!(held, [19_000_000, 19_500_000, 19_500_000, 19_500_000]);
    assert_eq!(lent.run(), Ran::Done(4));
    assert_eq!(hand.by_hand(), (None, 4));
    assert_eq!(lent, hand);
}

/// Several at one increment are made in order; the one refused takes back none of those before it, and nothing after it is made.
#[test]
fn a_refused_change_keeps_those_before_it() {
    let changes = [
        [1, H, 1, 5, 0],
        [2, E, 1, 1, 2_000],
        [2, H, 1, 9, 0],
        [2, F, 1, 0, 19_000_000],
        [2, T, 3, 20_000_000, 0],
        [3, H, 1, 11, 0],
    ];
    let groups = each(5, &changes);
    let mut lent = KeptLent::built(groups.table());
    // The film of 0 is refused as its replacement is, by 4 at the F card, which is the eighth.
    assert_eq!(lent.run(), run_refused(4, 8));
    let mut one = each(1, &changes);
    one.d[2] = 1;
    let mut first = KeptLent::built(one.table());
    assert_eq!(first.run(), Ran::Done(1));
    assert_eq!(lent.temperatures, first.temperatures);
    assert_eq!(lent.carried, first.carried);
    let mut present = groups.clone();
    present.elements[0][4] = 2_000;
    present.heats[0][1] = 9;
    assert_eq!(lent.table, present.table());
    let fresh = KeptLent::built(present.table());
    assert_eq!(
        [&lent.p, &lent.a, &lent.factor],
        [&fresh.p, &fresh.a, &fresh.factor]
    );
}

/// Values are judged when they are made, by their own ranges; one that no step reaches never.
#[test]
fn new_values_when_made() {
    for (change, number, place) in [
        ([E, 1, 0, 1_000], 4, 6),
        ([E, 1, 2, 1_000], 4, 6),
        ([E, 1, 1, 0], 4, 6),
        ([E, 1, 1, 4_001], 4, 6),
        ([H, 1, 0, 0], 4, 7),
        ([H, 1, 5_000_001, 0], 4, 7),
        ([F, 1, 0, 9], 4, 8),
        ([F, 1, 100_001, 9], 4, 8),
        ([F, 1, 9, TOP + 1], 4, 8),
        ([T, 3, TOP + 1, 0], 4, 10),
        ([T, 3, MOST_VALUE, 0], 4, 10),
        ([E, 1, MOST_VALUE, MOST_VALUE], 4, 6),
    ] {
        let [letter, key, first, second] = change;
        for step in 1..=4 {
            let groups = each(3, &[[step, letter, key, first, second]]);
            accepts(&groups.table());
            let mut lent = KeptLent::built(groups.table());
            let mut right = KeptLent::built(groups.table());
            right.steps(step - 1);
            let expected = match step {
                4 => Ran::Done(3),
                _ => run_refused(number, place),
            };
            assert_eq!(lent.run(), expected);
            assert_eq!(lent, right);
        }
    }
}

/// P10, P8 and the leaning triangle in the place of what was there: 6 at the element, 7 and 8 at the row. 7 and 8 clear the work slice.
#[test]
fn elements_and_factors_when_made() {
    let mut stiff = each(3, &[]);
    stiff.d[0] = 1;
    stiff.materials = vec![[1_000, 1_000, 960], [1_000, 1_000, 961]];
    stiff.elements[0][4] = 4_000;
    let mut slow = heated(3, &[]);
    slow.d[0] = 60_000;
    slow.materials = vec![[1_000, 1_000, 5_000], [1_000, 1_000, 1]];
    let mut leaning = Groups::leaning();
    leaning.d[2] = 3;
    leaning.materials.push([10_000, 10_000, 1]);
    leaning.materials[0] = [1, 1, 5_000];
    for (mut groups, thickness, number, place) in [
        (stiff, 4_000, 6, 1),
        (slow, 1_000, 7, 3),
        (leaning, 1_000, 8, 2),
    ] {
        for step in 1..=3 {
            groups.changes = vec![[step, E, 1, 2, thickness]];
            let mut lent = KeptLent::built(groups.table());
            let mut right = lent.clone();
            lent.work.fill(MARK);
            right.work.fill(MARK);
            if number != 6 {
                let length = kept_of(&right.table);
                right.work[..length].fill(0);
            }
            right.steps(step - 1);
            assert_eq!(lent.run(), run_refused(number, place));
            assert_eq!(lent, right);
        }
    }
}

/// Of slices that are not the deck's a change of E or F also finds an element of no area, 5, and a thin one, 14.
#[test]
fn flat_and_thin_when_made() {
    for (third, number) in [([100, 100], 5), ([101, 102], 14)] {
        for step in 1..=3 {
            for change in [[step, E, 1, 1, 900], [step, F, 1, 481, 19_660_800]] {
                let groups = each(3, &[change]);
                let built = KeptLent::built(groups.table());
                let mut other = groups.clone();
                other.nodes = vec![[0, 0], [50, 50], third];
                let mut lent = KeptLent {
                    table: other.table(),
                    ..built
                };
                let mut right = lent.clone();
                right.steps(step - 1);
                assert_eq!(lent.run(), run_refused(number, 1));
                assert_eq!(lent, right);
            }
        }
    }
}

/// The work slice is asked for by a change alone, and when it is made; temperatures and residuals by the step after it.
#[test]
fn short_slices() {
    let none = each(2, &[]);
    let second = each(2, &[[2, H, 1, 9, 0]]);
    for (groups, expected, steps) in [(none, Ran::Done(2), 2), (second, run_refused(9, 0), 1)] {
        let mut lent = KeptLent::built(groups.table());
        let mut right = lent.clone();
        lent.work = vec![MARK; 5];
        right.work = vec![MARK; 5];
        assert_eq!(lent.run(), expected);
        right.steps(steps);
        assert_eq!(lent, right);
    }
    for short in 0..2 {
        let mut lent = KeptLent::built(each(2, &[[1, H, 1, 9, 0]]).table());
        match short {
            0 => lent.temperatures.truncate(2),
            _ => lent.carried.truncate(2),
        }
        let mut right = lent.clone();
        right.table[6 * 6 + 2] = 9;
        assert_eq!(lent.run(), run_refused(9, 0));
        assert_eq!(lent, right);
    }
    // Starts and foreign numbers are the change's own refusals where it comes first: nothing is made.
    for (spoiled, number, place) in [(0, 17, 2), (1, 10, 0)] {
        let mut lent = KeptLent::built(each(2, &[[1, H, 1, 9, 0]]).table());
        match spoiled {
            0 => lent.starts[1] = 5,
            _ => lent.a[0] = i64::MIN,
        }
        let right = lent.clone();
        assert_eq!(lent.run(), run_refused(number, place));
        assert_eq!(lent, right);
    }
    // Residuals are not: the change is made, then the step refused.
    let mut lent = KeptLent::built(each(2, &[[1, H, 1, 9, 0]]).table());
    lent.carried[0] = MOST_CARRIED + 1;
    let mut right = lent.clone();
    right.table[6 * 6 + 2] = 9;
    assert_eq!(lent.run(), run_refused(10, 0));
    assert_eq!(lent, right);
}

/// Evenings by chance: a run is its changes and steps by hand, and what freshly built decks give; packed and kept alike.
#[test]
fn evenings() {
    let mut chance = Chance::seeded(91);
    let mut met = [0; NUMBERS];
    for round in 0..1_500 {
        let mut groups = match chance.within(0, 3) {
            0 => Groups::block(&mut chance, 2, 3, 2),
            1 => Groups::slivers(&mut chance),
            _ => {
                let (columns, rows) = (chance.within(2, 5), chance.within(2, 4));
                Groups::sheet(&mut chance, columns, rows)
            }
        };
        groups.d[2] = chance.within(1, 8);
        // A second material that few can be made of: too little capacity to factor, or too much.
        let hard = match chance.within(0, 2) {
            0 => Some([500_000, 1, 1]),
            1 => {
                groups.d[0] = 1;
                Some([1_000, 1_000, 5_000])
            }
            _ => None,
        };
        if let Some(hard) = hard {
            groups.materials = vec![[1_000, 1_000, 1_000], hard];
            groups.upward = vec![1_000; if groups.solids.is_empty() { 0 } else { 2 }];
            groups.elements.iter_mut().for_each(|card| card[3] = 1);
            groups.solids.iter_mut().for_each(|card| card[4] = 1);
        }
        let many = chance.pick(&[1, 3, 10, 64]);
        let last = groups.d[2];
        groups.change(&mut chance, many, last, round % 2 == 0);
        let mut lent = KeptLent::new(groups.table());
        if lent.build() != Answer::Done {
            continue;
        }
        let mut packed = Lent::built(groups.table());
        let (mut hand, mut built) = (lent.clone(), lent.clone());
        let ran = lent.run();
        let evening = hand.by_hand();
        let expected = match evening.0 {
            None => Ran::Done(evening.1),
            Some(refusal) => Ran::Refused(refusal),
        };
        assert_eq!(ran, expected);
        assert_eq!(lent, hand);
        assert_eq!(packed.run(), ran);
        assert_eq!(KeptLent::of(&packed).a, lent.a);
        assert_eq!(packed.temperatures, lent.temperatures);
        assert_eq!(built.by_builds(), evening);
        built.work.clone_from(&lent.work);
        assert_eq!(lent, built);
        met[evening.0.map_or(0, |refusal| refusal.number as usize)] += 1;
        // P, A and the factor are those of the present deck.
        let fresh = KeptLent::built(lent.table.clone());
        assert_eq!(
            [&lent.p, &lent.a, &lent.factor],
            [&fresh.p, &fresh.a, &fresh.factor]
        );
    }
    assert!(
        [0, 4, 6, 7, 8, 11].iter().all(|&number| met[number] > 0),
        "{met:?}"
    );
}

// ---- the card

#[test]
fn ranges() {
    let right = each(3, &[[1, H, 1, 9, 0]]).table();
    let row = 10;
    accepts(&right);
    for (field, least, most) in [(1, 1, 100_000), (3, 1, 1), (4, 0, MOST_VALUE)] {
        for value in [least, most] {
            accepts(&with(&right, row, field, value));
        }
        for value in [least.wrapping_sub(1), most + 1, u32::MAX] {
            if value < least || value > most {
                table_refused(&with(&right, row, field, value), 4, 11);
            }
        }
    }
    let two = each(3, &[[1, F, 1, 9, 8]]).table();
    for value in [0, MOST_VALUE] {
        accepts(&with(&two, row, 5, value));
    }
    table_refused(&with(&two, row, 5, MOST_VALUE + 1), 4, 11);
    // In bytes a 0 is filled too, and eight columns hold no more than a new value may be.
    let bytes = bytes_of(&right);
    bytes_refused(&put(&bytes, row, 1, b"       0"), 4, 11);
    bytes_refused(&put(&bytes, row, 1, b"  100001"), 4, 11);
    bytes_refused(&put(&bytes, row, 3, b"       0"), 4, 11);
}

/// The fifth field is blank for H and T alone; of every other code it is used, right or not.
#[test]
fn the_fifth_field() {
    for (letter, key) in [(E, 1), (H, 1), (F, 1), (T, 3)] {
        let groups = each(3, &[[1, letter, key, 1, 0]]);
        let (table, bytes) = (groups.table(), text_of(&groups.table()));
        accepts(&table);
        let one = letter == H || letter == T;
        for columns in [b"       0", b"       1", b"99999999"] {
            let filled = put(&bytes, 10, 5, columns);
            if one {
                bytes_refused(&filled, 3, 11);
            } else {
                let mut read = vec![9; table.len()];
                let end = bytes.len();
                assert_eq!(reference::read(&filled, &mut read), (Answer::Done, 0, end));
            }
        }
        for columns in NO_NUMBERS {
            bytes_refused(&put(&bytes, 10, 5, columns), 3, 11);
        }
        if one {
            table_refused(&with(&table, 10, 5, 1), 3, 11);
        } else {
            bytes_refused(&put(&bytes, 10, 5, b"        "), 3, 11);
            accepts(&with(&table, 10, 5, 1));
        }
    }
    for code in [0, 1, D, N, M, V, G, C, Z, 68, 71, 83, 85, 100, MOST_VALUE] {
        let groups = each(3, &[[1, code, 1, 1, 0]]);
        let table = groups.table();
        let bytes = text_of(&table);
        bytes_refused(&bytes, 4, 11);
        bytes_refused(&put(&bytes, 10, 5, b"        "), 3, 11);
        table_refused(&table, 4, 11);
        table_refused(&with(&table, 10, 5, 7), 4, 11);
    }
    // The other fields are used in each, and the code's own columns are read as any.
    let bytes = bytes_of(&each(3, &[[1, H, 1, 1, 0]]).table());
    for field in 1..=4 {
        bytes_refused(&put(&bytes, 10, field, b"        "), 3, 11);
    }
    bytes_refused(&put(&bytes, 10, 2, b"     072"), 3, 11);
    bytes_refused(&put(&bytes, 10, 2, b"       H"), 3, 11);
}

/// A key with no card to change: 4. A V is no E, and an element or node without its H, F or T is none.
#[test]
fn keys() {
    let mut groups = Groups::sheet(&mut Chance::seeded(5), 3, 3);
    groups.heats = vec![[2, 1], [5, 1], [8, 1]];
    groups.films = vec![[1, 1, 1], [7, 1, 1]];
    groups.fixed = vec![[3, 1], [9, 1]];
    groups.edges = vec![[1, 2, 3, 4, 5]];
    let solid = {
        let mut groups = Groups::two_solids();
        groups.heats = vec![[2, 3]];
        groups
    };
    for groups in [groups, solid] {
        let named = groups.changeable();
        for letter in NAMED {
            for key in (0..=12).chain([69, 72, 160, 161, u32::MAX]) {
                let mut groups = groups.clone();
                let second = if letter == E || letter == F { 3 } else { 0 };
                groups.changes = vec![[7, letter, key, 2, second]];
                let table = groups.table();
                if named.contains(&(letter, key)) {
                    accepts(&table);
                } else {
                    let place = table.len() as u32 / 6 - 1;
                    table_refused(&table, 4, place);
                    if key <= MOST_VALUE {
                        bytes_refused(&text_of(&table), 4, place);
                    }
                }
            }
        }
    }
}

/// They rise by increment, then letter as in the deck, then key: E, H, F, T.
#[test]
fn rising() {
    let mut groups = Groups::sheet(&mut Chance::seeded(5), 3, 3);
    groups.heats = vec![[2, 1], [5, 1]];
    groups.films = vec![[2, 1, 1], [5, 1, 1]];
    groups.fixed = vec![[2, 1], [5, 1]];
    let mut all = vec![];
    for step in [1, 2] {
        for letter in NAMED {
            for key in [2, 5] {
                let second = u32::from(letter == E || letter == F);
                all.push([step, letter, key, 1, second]);
            }
        }
    }
    groups.changes = all.clone();
    accepts(&groups.table());
    for (i, first) in all.iter().enumerate() {
        for (j, second) in all.iter().enumerate() {
            groups.changes = vec![*first, *second];
            let table = groups.table();
            if i < j {
                accepts(&table);
            } else {
                let place = table.len() as u32 / 6 - 1;
                table_refused(&table, 4, place);
                bytes_refused(&text_of(&table), 4, place);
            }
        }
    }
}

/// C after T, and nothing but C and Z after it.
#[test]
fn places() {
    let groups = each(3, &[[1, H, 1, 9, 0]]);
    let table = groups.table();
    for row in 1..10 {
        let mut other = table.clone();
        let card: Vec<u32> = other.drain(60..66).collect();
        other.splice(6 * row..6 * row, card);
        // Directly after E it may stand, but its H is not yet there; later on an F, G or T may not come after it.
        let (number, place) = match row {
            1..=5 => (3, row as u32 + 1),
            6 => (4, 7),
            _ => (3, row as u32 + 2),
        };
        table_refused(&other, number, place);
        bytes_refused(&text_of(&other), number, place);
    }
    // With no T, G, F it comes after what there is.
    let mut bare = heated(3, &[[1, E, 1, 1, 9]]);
    accepts(&bare.table());
    bare.heats.clear();
    accepts(&bare.table());
    bare.edges.push([1, 2, 1, 1, 1]);
    accepts(&bare.table());
}

#[test]
fn at_most_64() {
    let mut groups = each(3, &[]);
    groups.changes = (1..=64).map(|step| [step, H, 1, 9, 0]).collect();
    accepts(&groups.table());
    // The 65th has a letter that its place doesn't allow, whatever its fields are.
    for change in [[65, H, 1, 9, 0], [64, H, 1, 9, 0], [0, 0, 0, 0, 0]] {
        groups.changes.push(change);
        table_refused(&groups.table(), 3, 10 + 65);
        bytes_refused(&text_of(&groups.table()), 3, 10 + 65);
        groups.changes.pop();
    }
    groups.changes[63] = [64, H, 2, 9, 0];
    groups.changes.push([65, H, 1, 9, 0]);
    table_refused(&groups.table(), 4, 10 + 64);
}

/// It can't be replaced: 3 where it is none, else 13, at its own card and at others.
#[test]
fn no_replacement() {
    let lent = Lent::built(each(3, &[[1, H, 1, 9, 0], [2, F, 1, 9, 9]]).table());
    for card in [6, 7, 11, 12, 13, 99] {
        for (new, number) in [
            ([C, 1, H, 1, 9, 0], 13),
            ([C, 1, H, 1, 8, 0], 13),
            ([C, 1, H, 1, 9, 1], 3),
            ([C, 1, T, 1, 9, 1], 3),
            ([C, 2, F, 1, 9, 9], 13),
            ([C, 0, 0, 0, 0, 0], 13),
            ([C; 6], 13),
        ] {
            lent.answers(card, new, refused(number, card));
        }
    }
    // Nor does another card come in its place.
    for new in [[H, 1, 9, 0, 0, 0], [E, 1, 2, 3, 1, 9]] {
        lent.answers(11, new, refused(13, 11));
    }
}

/// Build, step and replace pay no heed to C cards.
#[test]
fn no_heed() {
    let mut chance = Chance::seeded(92);
    for _ in 0..200 {
        let plain = Groups::wild(&mut chance);
        let mut changed = plain.clone();
        changed.change(&mut chance, 5, 4, true);
        let (mut a, mut b) = (Lent::new(plain.table()), Lent::new(changed.table()));
        assert_eq!(a.build(), b.build());
        assert_eq!(a.step(), b.step());
        if let Some(&[element, heat]) = plain.heats.first() {
            let rows = 1 + plain.nodes.len() + plain.materials.len();
            let card = (rows + plain.elements.len() + plain.solids.len()) as u32 + 1;
            let new = [H, element, heat / 2 + 1, 0, 0, 0];
            assert_eq!(a.replace(card, new), b.replace(card, new));
            let rows = a.table.len() - 6;
            assert_eq!(a.table[..rows], b.table[..rows]);
        }
        b.table.clone_from(&a.table);
        assert_eq!(a, b);
    }
}
