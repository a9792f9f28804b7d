//! Shows a case on which the two programs disagree.

use crate::case::{Call, Case, Outcome, MATRICES};

/// The most numbers shown of a slice.
const SHOWN: usize = 60;

pub fn disagreement(case: &Case) {
    println!("{}", call(case));
    let lent = &case.lent;
    if case.call == Call::Read {
        println!("bytes ({}):", lent.bytes.len());
        println!(
            "{}",
            String::from_utf8_lossy(&lent.bytes).trim_end_matches('\n')
        );
        println!("a table of {} numbers", lent.table.len());
    } else {
        cards(&lent.table);
    }
    if case.call == Call::Write {
        println!("room for {} bytes", lent.bytes.len());
    }
    if case.call.index() >= 2 {
        for (name, matrix) in MATRICES.iter().zip(&lent.matrices) {
            numbers(name, matrix);
        }
        numbers("temperatures", &lent.temperatures);
        numbers("carried", &lent.carried);
        println!("starts ({}): {:?}", lent.starts.len(), lent.starts);
    }
    let (right, ours) = (case.by_reference(), case.by_archive());
    if right == ours {
        packed(case, &ours);
        return;
    }
    println!("reference answers {}", answer(&right));
    println!("archive   answers {}", answer(&ours));
    differences(&right, &ours);
}

/// Where only the packed form is apart: from reference/'s, or from the kept one.
fn packed(case: &Case, kept: &Outcome) {
    if let Some(apart) = case.packed_apart(kept) {
        println!("apart: {}", apart.words);
        println!("it must answer {}", answer(&apart.right));
        println!("and it answers {}", answer(&apart.ours));
        differences(&apart.right, &apart.ours);
    }
}

fn call(case: &Case) -> String {
    match case.call {
        Call::Replace { card, new } => format!("replace card {card} by {new:?}"),
        call => Call::NAMES[call.index()].to_string(),
    }
}

fn cards(table: &[u32]) {
    println!("table ({} numbers):", table.len());
    for card in table.chunks(6) {
        let letter = char::from_u32(card[0]).filter(char::is_ascii_uppercase);
        let letter = letter.map_or(card[0].to_string(), String::from);
        println!("  {letter} {:?}", &card[1..]);
    }
}

fn numbers(name: &str, slice: &[i64]) {
    if !slice.is_empty() && slice.iter().all(|&number| number == 0) {
        println!("{name} ({}): zero", slice.len());
        return;
    }
    let shown = &slice[..slice.len().min(SHOWN)];
    let more = if slice.len() > SHOWN { " .." } else { "" };
    println!("{name} ({}): {shown:?}{more}", slice.len());
}

fn answer(outcome: &Outcome) -> String {
    let answer = outcome.answer;
    format!(
        "number {}, corrections {}, place {}",
        answer & 255,
        answer >> 8 & 255,
        answer >> 16
    )
}

/// The first numbers that differ, slice by slice.
fn differences(right: &Outcome, ours: &Outcome) {
    let (right, ours) = (&right.lent, &ours.lent);
    slice("bytes", &right.bytes, &ours.bytes);
    slice("table", &right.table, &ours.table);
    for (which, name) in MATRICES.iter().enumerate() {
        slice(name, &right.matrices[which], &ours.matrices[which]);
    }
    slice("temperatures", &right.temperatures, &ours.temperatures);
    slice("carried", &right.carried, &ours.carried);
    slice("starts", &right.starts, &ours.starts);
    slice("bounds of the part", &right.part, &ours.part);
}

fn slice<A: PartialEq + std::fmt::Display>(name: &str, right: &[A], ours: &[A]) {
    let differ = right
        .iter()
        .zip(ours)
        .enumerate()
        .filter(|(_, (right, ours))| right != ours);
    for (at, (right, ours)) in differ.take(8) {
        println!("after it {name}[{at}]: reference {right}, archive {ours}");
    }
}
