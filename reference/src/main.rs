//! The stepping program: a deck on standard input, its last temperatures on
//! standard output.

use std::io::{self, BufWriter, Read, Write};
use std::process::ExitCode;

use reference::{build, read, run, Answer, Ran, Refusal, MAX_BYTES, MAX_NODES, MAX_ROWS};

fn main() -> ExitCode {
    match answer() {
        Ok(()) => ExitCode::SUCCESS,
        Err(error) => {
            eprintln!("{error}");
            ExitCode::FAILURE
        }
    }
}

fn answer() -> io::Result<()> {
    // One byte more than a deck may have is enough to see that it is too long.
    let mut bytes = Vec::new();
    io::stdin()
        .lock()
        .take(MAX_BYTES as u64 + 1)
        .read_to_end(&mut bytes)?;

    let mut out = BufWriter::new(io::stdout().lock());
    match simulate(&bytes) {
        Ok((steps, temperatures)) => {
            for (i, ticks) in temperatures.iter().enumerate() {
                writeln!(out, "T {} {}", i + 1, ticks)?;
            }
            writeln!(out, "Z {} {}", steps, temperatures.len())?;
        }
        Err(refusal) => writeln!(out, "R {} {}", refusal.number, refusal.place)?,
    }
    out.flush()
}

/// The steps done and the temperatures after them.
fn simulate(bytes: &[u8]) -> Result<(u32, Vec<i64>), Refusal> {
    let mut table = vec![0; 6 * MAX_ROWS];
    let (answer, start, end) = read(bytes, &mut table);
    accepted(answer)?;
    let table = &mut table[..(end - start) / 42 * 6];
    // D's start temperature; Z's count of nodes.
    let start = i64::from(table[2]);
    let nodes = table[table.len() - 4] as usize;

    let matrix = vec![0; MAX_NODES * (MAX_NODES + 1) / 2];
    let (mut p, mut a, mut factor, mut work) =
        (matrix.clone(), matrix.clone(), matrix.clone(), matrix);
    accepted(build(table, &mut p, &mut a, &mut factor, &mut work))?;

    let (mut temperatures, mut carried) = (vec![start; nodes], vec![0; nodes]);
    let (p, a, factor, work) = (&mut p, &mut a, &mut factor, &mut work);
    match run(table, p, a, factor, work, &mut temperatures, &mut carried) {
        Ran::Done(steps) => Ok((steps, temperatures)),
        Ran::Refused(refusal) => Err(refusal),
    }
}

fn accepted(answer: Answer) -> Result<(), Refusal> {
    match answer {
        Answer::Done => Ok(()),
        Answer::Refused(refusal) => Err(refusal),
    }
}
