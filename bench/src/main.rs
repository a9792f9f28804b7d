//! The archive's calls against those of reference/, over the packed form and over the kept one, in one run: medians of many, taken in
//! turns.
//!
//!     bench DECK..
//!     bench replacing DECK        replacements, against full factorings
//!     bench names DECK            what those are called
//!     bench again NAME DECK       one of them, or a build, again and again, for bench/parts to look at
//!
//! The decks rise in nodes and build. reference/ divides as the paper writes it: its R is x/2^20 by a division.
//!
//! With the feature `apart` and the word replacing the archive's loop of a factor alone, with `ldl` SuiteSparse's too.
//! With the feature `run` also the deck's steps in one call, and the same with changes. With the feature `before` it is the archive's calls against those of an archive from before rows were kept.

#[path = "../../reference/tests/common/mod.rs"]
mod decks;
#[allow(dead_code)]
#[path = "../../tests/differential/src/face.rs"]
mod face;
#[cfg(feature = "run")]
#[path = "../../tests/differential/src/packed_face.rs"]
#[allow(dead_code)]
mod packed_face;

#[cfg(feature = "apart")]
mod apart;
mod archive;
#[cfg(feature = "before")]
mod before;
mod boards;
mod clock;
#[cfg(feature = "ldl")]
mod ldl;
mod plain;
#[cfg(feature = "apart")]
mod replacing;

use boards::Board;
use clock::in_turns;
use reference::Card;

/// Sizes whose every call is shown.
const SHOWN: [usize; 3] = [12, 48, 96];
const ROUNDS: usize = 5;

fn main() {
    let words: Vec<String> = std::env::args().skip(1).collect();
    #[cfg(feature = "apart")]
    match &words[..] {
        [word, deck] if word == "replacing" => return replacing::table(&Board::read(deck)),
        [word, deck] if word == "names" => return replacing::names(&Board::read(deck)),
        [word, name, deck] if word == "again" => return replacing::again(&Board::read(deck), name),
        _ => {}
    }
    let boards: Vec<Board> = words.iter().map(|path| Board::read(path)).collect();
    #[cfg(feature = "before")]
    return before::calls(&boards);
    #[cfg(not(feature = "before"))]
    calls(&boards);
}

/// A replacement to measure: its name, the card, the field of it that is one more and back.
pub struct Change {
    pub name: String,
    pub card: u32,
    pub even: Card,
    pub field: usize,
}

impl Change {
    fn of(found: (u32, u32, Card), field: usize) -> Change {
        let (least, card, even) = found;
        let letter = char::from(even[0] as u8);
        let name = format!("replace {letter} at {least}");
        Change {
            name,
            card,
            even,
            field,
        }
    }

    /// In each quarter of the nodes, and in the middle: an element's thickness or material, a film. And an edge, a heat.
    pub fn all(board: &Board) -> Vec<Change> {
        let nodes = board.nodes as u32;
        let places = || [1, 3, 4, 5, 7].map(|eighths| nodes * eighths / 8);
        let mut changes: Vec<Change> = places()
            .map(|node| Change::of(board.element_near(node), 5))
            .into();
        let films = places()
            .into_iter()
            .filter_map(|node| board.film_near(node));
        changes.extend(films.map(|found| Change::of(found, 2)));
        let edge = board.edge_near(nodes / 2);
        changes.extend(edge.map(|found| Change::of(found, 3)));
        let (card, even) = board.heat();
        changes.push(Change {
            name: "replace H".to_string(),
            card,
            even,
            field: 2,
        });
        changes
    }

    /// The new card, in turns.
    pub fn cards(&self) -> impl FnMut() -> Card {
        let (even, mut odd) = (self.even, self.even);
        odd[self.field] += 1;
        let mut turn = false;
        move || {
            turn = !turn;
            if turn {
                odd
            } else {
                even
            }
        }
    }
}

#[cfg_attr(feature = "before", allow(dead_code))]
fn calls(boards: &[Board]) {
    println!(
        "{:15} {:>5} {:>6} {:>12} {:>12} {:>12} {:>7} {:>7}",
        "call", "nodes", "kept", "packed", "kept", "archive", "to pack", "to kept"
    );
    for board in boards.iter().filter(|board| SHOWN.contains(&board.nodes)) {
        let [plain, archive] = in_turns([plain::read(board), archive::read(board)]);
        show("read", board, [plain, plain, archive]);
        let [plain, archive] = in_turns([plain::write(board), archive::write(board)]);
        show("write", board, [plain, plain, archive]);
        show("build", board, builds(board));
        for change in Change::all(board) {
            let works = [
                plain::replace_packed(board, &change),
                plain::replace_kept(board, &change),
                archive::replace(board, &change),
            ];
            show(&change.name, board, in_turns(works));
        }
        show("step", board, steps(board, board.factors()));
        // The most that a step can do.
        if let Some(factors) = board.factors_for(4) {
            show("step by 4", board, steps(board, factors));
        }
        if let Some(bare) = board.without_sources() {
            radiation(board, &bare);
        }
        zones(board);
        #[cfg(feature = "run")]
        runs(board);
    }
    if boards.len() > 1 {
        growth(boards);
    }
}

fn show(call: &str, board: &Board, [packed, kept, archive]: [f64; 3]) {
    let (to_packed, to_kept) = (archive / packed, archive / kept);
    let mark = if to_packed.max(to_kept) < 1.0 {
        ""
    } else {
        "  more"
    };
    let (nodes, count) = (board.nodes, board.kept[0].len());
    println!("{call:15} {nodes:>5} {count:>6} {packed:>9.0} ns {kept:>9.0} ns {archive:>9.0} ns {to_packed:>7.2} {to_kept:>7.2}{mark}");
}

fn builds(board: &Board) -> [f64; 3] {
    in_turns([
        plain::build_packed(board),
        plain::build_kept(board),
        archive::build(board),
    ])
}

/// Always the first step of the deck, with nothing carried.
fn steps(board: &Board, [packed, kept]: [Vec<i64>; 2]) -> [f64; 3] {
    in_turns([
        plain::step_packed(board, packed),
        plain::step_kept(board, kept.clone()),
        archive::step(board, kept),
    ])
}

/// A step of the archive on the same board with R cards and without them.
fn radiation(board: &Board, bare: &Board) {
    let own = board.factors();
    for (name, factors) in [("own", Some(own)), ("4", board.factors_for(4))] {
        let Some([_, kept]) = factors else { continue };
        let works = [
            archive::step(bare, kept.clone()),
            archive::step(board, kept),
        ];
        let [without, with] = in_turns(works);
        let cards = (board.table.len() - bare.table.len()) / 6;
        let ratio = with / without;
        let mark = if ratio <= 1.5 { "" } else { "  more" };
        println!("step, {name} corrections: without R {without:.0} ns, with {cards} R cards {with:.0} ns, {ratio:.2} of it{mark}");
    }
}

/// A step with zones against the step alone.
fn zones(board: &Board) {
    let [_, kept] = board.factors();
    let works = [
        archive::step(board, kept.clone()),
        archive::zones_step(board, kept),
    ];
    let [alone, zones] = in_turns(works);
    let (nodes, times) = (board.nodes, zones / alone);
    println!("step with zones {nodes:>5} {alone:>9.0} ns alone {zones:>9.0} ns, {times:.2} of it");
}

/// All of the deck's steps; and the same with changes, one at every other step and as many as there may be.
#[cfg(feature = "run")]
fn runs(board: &Board) {
    let changing = board.with_changes();
    for (name, board) in [("run", board), ("run with C", &changing)] {
        let works = [
            plain::run_packed(board),
            plain::run_kept(board),
            archive::run(board),
        ];
        show(name, board, in_turns(works));
    }
}

/// How the cost of a build rises: the power of n from each size to the next. Other work on the machine comes and goes, so
/// every size is measured in each of some rounds, and its least median counts.
fn growth(boards: &[Board]) {
    let mut least = vec![[f64::INFINITY; 3]; boards.len()];
    for _ in 0..ROUNDS {
        for (least, board) in least.iter_mut().zip(boards) {
            let times = builds(board);
            *least = [0, 1, 2].map(|which| least[which].min(times[which]));
        }
    }
    println!("build, from each size to the next as a power of n:");
    for (boards, times) in boards.windows(2).zip(least.windows(2)) {
        let (n, m) = (boards[0].nodes, boards[1].nodes);
        if n == m {
            continue;
        }
        let power =
            |which: usize| (times[1][which] / times[0][which]).ln() / (m as f64 / n as f64).ln();
        let [packed, kept, archive] = [0, 1, 2].map(power);
        println!(
            "{n:>3} to {m:>3} nodes   packed {packed:.2}   kept {kept:.2}   archive {archive:.2}"
        );
    }
}
