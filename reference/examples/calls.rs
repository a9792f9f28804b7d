//! calls [NODE TICKS]..: a deck from standard input, its matrices and its steps printed, as tests/books/calls.c prints them.
//!
//! Lines: P and A with row, column and number; T with node and ticks after D's steps, each node named begun at its ticks, all others
//! at D's; then Z. A refusal is R with its number and place.

use std::io::{self, Read};

use reference::{build, read, step, Answer, Refusal, Stepped, MAX_BYTES, MAX_NODES, MAX_ROWS};

fn main() -> io::Result<()> {
    let mut bytes = Vec::new();
    let most = MAX_BYTES as u64 + 1;
    io::stdin().lock().take(most).read_to_end(&mut bytes)?;
    let words: Vec<i64> = std::env::args()
        .skip(1)
        .filter_map(|word| word.parse().ok())
        .collect();
    match print(&bytes, &words) {
        Ok(lines) => print!("{lines}"),
        Err(refusal) => println!("R {} {}", refusal.number, refusal.place),
    }
    Ok(())
}

fn print(bytes: &[u8], words: &[i64]) -> Result<String, Refusal> {
    let mut table = vec![0; 6 * MAX_ROWS];
    let (answer, start, end) = read(bytes, &mut table);
    accepted(answer)?;
    let table = &table[..(end - start) / 42 * 6];
    let nodes = table[table.len() - 4] as usize;
    let matrix = vec![0; MAX_NODES * (MAX_NODES + 1) / 2];
    let (mut p, mut a, mut factor, mut work) =
        (matrix.clone(), matrix.clone(), matrix.clone(), matrix);
    accepted(build(table, &mut p, &mut a, &mut factor, &mut work))?;

    let (mut temperatures, mut carried) = (vec![i64::from(table[2]); nodes], vec![0; nodes]);
    for pair in words.chunks_exact(2) {
        temperatures[pair[0] as usize - 1] = pair[1];
    }
    for _ in 0..table[3] {
        match step(table, &p, &a, &factor, &mut temperatures, &mut carried) {
            Stepped::Settled(_) => {}
            Stepped::Refused(refusal) => return Err(refusal),
        }
    }

    let mut lines = String::new();
    for (letter, matrix) in [('P', &p), ('A', &a)] {
        for row in 0..nodes {
            for column in 0..=row {
                let number = matrix[row * (row + 1) / 2 + column];
                lines += &format!("{letter} {} {} {number}\n", row + 1, column + 1);
            }
        }
    }
    for (node, ticks) in temperatures.iter().enumerate() {
        lines += &format!("T {} {ticks}\n", node + 1);
    }
    lines += &format!("Z {} {nodes}\n", table[3]);
    Ok(lines)
}

fn accepted(answer: Answer) -> Result<(), Refusal> {
    match answer {
        Answer::Done => Ok(()),
        Answer::Refused(refusal) => Err(refusal),
    }
}
