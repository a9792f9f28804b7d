//! An answer in the words that the module has for it.

use reference::{Answer, Refusal, Stepped};

/// Where the refusals' words stand.
const HEADER: &str = include_str!("../../../include/gormulast.h");

/// The words of a refusal, with its place where they have one.
fn refused(Refusal { number, place }: Refusal) -> String {
    let row = HEADER
        .lines()
        .find(|line| line.contains(&format!(", {number}, \"")))
        .expect("each refusal has a row in the header");
    let words = row.split('"').nth(1).expect("a row has words");
    format!(
        "refused {number}: {}",
        words.replace("%u", &place.to_string())
    )
}

pub fn answered(answer: Answer) -> String {
    match answer {
        Answer::Done => "accepted".to_string(),
        Answer::Refused(refusal) => refused(refusal),
    }
}

/// Of the last of some steps, and how many were done.
pub fn stepped(last: Stepped, done: u32) -> String {
    let words = match last {
        Stepped::Settled(corrections) => format!("accepted, corrections {corrections}"),
        Stepped::Refused(refusal) => refused(refusal),
    };
    match done {
        0 => words,
        _ => format!("{words}, steps {done}"),
    }
}
