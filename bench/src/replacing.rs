//! A replacement on the largest deck, the whole call, against
//!   (a) plain Rust's full factoring of the same packed triangle, its loop alone,
//!   (b) plain Rust's replacement, over the packed form and over the kept one,
//!   (c) SuiteSparse's LDL, its numeric part alone, where it is linked.
//! And the archive's own loop of a full factoring against (a) and (c), and against (c) with no (a) in turns with them, whose packed triangle
//! takes their place in the processor's memory.

use crate::boards::Board;
use crate::clock::{all_in_turns, in_turns, Work};
use crate::{apart, archive, plain, Change, ROUNDS};

/// Runs of a round: seven works of up to 0.2 ms each.
const RUNS: usize = 101;
/// Rounds of a call that is looked at.
const AGAIN: usize = 25;

/// In turns: the archive's, (a), (b), (b) kept and (c); and the copies that a factoring begins with, of the archive's and of (a).
type Slots<A> = [Option<A>; 7];

pub fn table(board: &Board) {
    let changes = changes(board);
    let (nodes, count) = (board.nodes, board.kept[0].len());
    println!("{nodes} nodes, {count} numbers kept, in ns; then the archive's time over each");
    let [a, b, kept, c] = ["(a)", "(b)", "(b) kept", "(c)"];
    println!(
        "{:17} {:>8} {a:>8} {b:>8} {kept:>8} {c:>8} | {a:>8} {b:>8} {kept:>8} {c:>8}",
        "", "archive"
    );
    let [calls @ .., alone, warm] = &least_medians(board, &changes)[..] else {
        unreachable!("the last two are of the factor");
    };
    for (change, times) in changes.iter().zip(calls) {
        show(&change.name, times);
    }
    show("factor alone", alone);
    show("with no (a) there", warm);
}

/// Of each change, of the factor alone, and of that with no (a) in turns with it. Other work on the machine comes and goes: all are
/// measured in each of some rounds.
fn least_medians(board: &Board, changes: &[Change]) -> Vec<Slots<f64>> {
    let cleared = board.cleared();
    let kept = board.shrunk(&cleared);
    check(board, &cleared);
    let mut least = vec![[f64::INFINITY; 7].map(Some); changes.len() + 2];
    for _ in 0..ROUNDS {
        let calls = changes
            .iter()
            .map(|change| replacement(board, &cleared, change));
        let mut warm = factoring(board, &cleared, &kept);
        [warm[1], warm[6]] = [None, None];
        let all = calls.chain([factoring(board, &cleared, &kept), warm]);
        least
            .iter_mut()
            .zip(all)
            .for_each(|(least, works)| lower(least, works));
    }
    least
}

/// F with the least corner at the first node, in the first quarter, in the middle, at the first node of the last quarter and in that
/// quarter; H and T.
fn changes(board: &Board) -> Vec<Change> {
    let nodes = board.nodes as u32;
    let places = [1, nodes / 8, nodes / 2, nodes * 3 / 4 + 1, nodes * 7 / 8];
    let films = places.into_iter().filter_map(|node| board.film_near(node));
    let mut changes: Vec<Change> = films.map(|found| Change::of(found, 2)).collect();
    let loads = [Some(board.heat()), board.held()];
    changes.extend(loads.into_iter().flatten().map(|(card, even)| Change {
        name: format!("replace {}", char::from(even[0] as u8)),
        card,
        even,
        field: 2,
    }));
    changes
}

fn replacement<'a>(board: &'a Board, cleared: &'a [i64], change: &Change) -> Slots<Work<'a>> {
    let mut slots = factored(board, cleared);
    slots[0] = Some(archive::replace(board, change));
    slots[2] = Some(plain::replace_packed(board, change));
    slots[3] = Some(plain::replace_kept(board, change));
    slots
}

fn factoring<'a>(board: &'a Board, cleared: &'a [i64], kept: &'a [i64]) -> Slots<Work<'a>> {
    let mut slots = factored(board, cleared);
    slots[0] = Some(apart::factor(board, kept));
    slots[5] = Some(plain::copy(kept));
    slots
}

/// Full factorings to measure against.
fn factored<'a>(board: &'a Board, cleared: &'a [i64]) -> Slots<Work<'a>> {
    let mut slots = Slots::default();
    slots[1] = Some(plain::factor(board, cleared));
    #[cfg(feature = "ldl")]
    {
        slots[4] = Some(crate::ldl::factor(board, cleared));
    }
    slots[6] = Some(plain::copy(cleared));
    slots
}

/// One round more.
fn lower(least: &mut Slots<f64>, works: Slots<Work>) {
    let there = works.each_ref().map(Option::is_some);
    let mut times = all_in_turns(works.into_iter().flatten().collect(), RUNS).into_iter();
    for (least, there) in least.iter_mut().zip(there) {
        let time = there.then(|| times.next().expect("a time for each work"));
        *least = time.and_then(|time| least.map(|least| least.min(time)));
    }
}

fn show(name: &str, &[archive, a, b, kept, c, own_copy, copy]: &Slots<f64>) {
    let archive = archive.expect("the archive's time") - own_copy.unwrap_or(0.0);
    let against = [a.zip(copy).map(|(a, copy)| a - copy), b, kept, c];
    let numbers = |digits: usize, number: &dyn Fn(f64) -> f64| -> String {
        let shown = |time: Option<f64>| match time {
            Some(time) => format!(" {:>8.digits$}", number(time)),
            None => format!(" {:>8}", ""),
        };
        against.map(shown).concat()
    };
    let (times, ratios) = (numbers(0, &|time| time), numbers(3, &|time| archive / time));
    println!("{name:17} {archive:>8.0}{times} |{ratios}");
}

/// Both loops make the deck's factor.
fn check(board: &Board, cleared: &[i64]) {
    let mut matrix = cleared.to_vec();
    assert_eq!(reference::factor(&mut matrix, board.nodes).packed(), 0);
    assert_eq!(matrix, board.packed[2], "plain Rust's loop");
    let mut matrix = board.shrunk(cleared);
    assert_eq!(apart::answer(board, &mut matrix), 0);
    assert_eq!(matrix, board.kept[2], "the archive's loop");
}

pub fn names(board: &Board) {
    let changes = changes(board);
    changes
        .iter()
        .for_each(|change| println!("{}", change.name));
}

/// One of the replacements, or a build, in many rounds, and its least median.
pub fn again(board: &Board, name: &str) {
    let change = changes(board)
        .into_iter()
        .find(|change| change.name == name);
    let least = (0..AGAIN).fold(f64::INFINITY, |least, _| {
        let work = match &change {
            Some(change) => archive::replace(board, change),
            None => archive::build(board),
        };
        let [time] = in_turns([work]);
        least.min(time)
    });
    println!("{least:.0}");
}
