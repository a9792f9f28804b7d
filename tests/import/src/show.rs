//! Makes a case that disagrees small, and shows it.

use crate::case::{Case, Outcome};
use crate::decks::{Record, RECORD_BYTES};

/// Takes out records, then sets values to zero, as long as it still disagrees.
pub fn shrink(mut case: Case) -> Case {
    let mut at = 0;
    while (at + 1) * RECORD_BYTES < case.records.len() {
        if !attempt(&mut case, |small| without(small, at)) {
            at += 1;
        }
    }
    for at in 0..case.records.len() / RECORD_BYTES {
        for value in [4, 8] {
            let from = at * RECORD_BYTES + value;
            attempt(&mut case, |small| small.records[from..from + 4].fill(0));
        }
    }
    case
}

/// Keeps an edit if the case still disagrees.
fn attempt(case: &mut Case, edit: impl FnOnce(&mut Case)) -> bool {
    let mut small = case.clone();
    edit(&mut small);
    let kept = small != *case && small.differs();
    if kept {
        *case = small;
    }
    kept
}

/// Takes out a record, and has the last one count one less.
fn without(case: &mut Case, at: usize) {
    drop(
        case.records
            .drain(at * RECORD_BYTES..(at + 1) * RECORD_BYTES),
    );
    let tail = case.records.len() / RECORD_BYTES * RECORD_BYTES;
    if let Some(tail) = tail.checked_sub(RECORD_BYTES) {
        let mut last = Record::of(&case.records[tail..]);
        last.number = last.number.wrapping_sub(1);
        case.records[tail..tail + RECORD_BYTES].copy_from_slice(&last.bytes());
    }
}

pub fn disagreement(case: &Case) {
    cards("table", &case.table);
    println!("records ({} bytes):", case.records.len());
    for record in case.records() {
        let [a, b] = record.values;
        let [x, y] = [a, b].map(f32::from_bits);
        println!(
            "  kind {} number {} values {a:#010x} {b:#010x}, {x:e} {y:e}",
            record.kind, record.number
        );
    }
    println!("a second table of {} numbers", case.second.len());
    let (right, ours) = (case.by_reference(), case.by_archive());
    println!("reference answers {}", answer(&right));
    println!("archive   answers {}", answer(&ours));
    if ours.lent.table != case.table || ours.lent.records != case.records {
        println!("the archive wrote into the table or the records");
    }
    let both = right.lent.second.iter().zip(&ours.lent.second);
    let differ = both.enumerate().filter(|(_, (right, ours))| right != ours);
    for (at, (right, ours)) in differ.take(8) {
        println!("after it second[{at}]: reference {right}, archive {ours}");
    }
}

fn cards(name: &str, table: &[u32]) {
    println!("{name} ({} numbers):", table.len());
    for card in table.chunks(6) {
        let letter = char::from_u32(card[0]).filter(char::is_ascii_uppercase);
        let letter = letter.map_or(card[0].to_string(), String::from);
        println!("  {letter} {:?}", &card[1..]);
    }
}

fn answer(outcome: &Outcome) -> String {
    let answer = outcome.answer;
    format!("number {}, place {}", answer & 65_535, answer >> 16)
}
