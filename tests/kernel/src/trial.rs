//! Cases of the differential test as bytes for the module tests/kernel/lent, and the bytes that it must leave.

use crate::case::{Call, Case, Lent};
use crate::decks::{Chance, NUMBERS};
use crate::met::Met;
use crate::{carried, rows};
use std::path::Path;
use std::{fs, io};

/// One of so many of the differential test's rounds.
const SHARE: u32 = 50;
/// A file of cases ends after so many bytes.
const ENOUGH: usize = 2 << 20;

/// One file: its cases, and the same after the calls.
#[derive(Default)]
struct Cases {
    before: Vec<u8>,
    after: Vec<u8>,
}

pub struct Trial {
    pub chance: Chance,
    files: Vec<Cases>,
    /// Cases by call and by number: 0 is acceptance.
    pub met: [[u32; NUMBERS]; 5],
    pub things: Met,
}

impl Trial {
    pub fn new(seed: u64) -> Trial {
        Trial {
            chance: Chance::seeded(seed),
            files: vec![Cases::default()],
            met: [[0; NUMBERS]; 5],
            things: Met::default(),
        }
    }

    pub fn times(&self, count: u32) -> impl Iterator<Item = u32> {
        0..count.div_ceil(SHARE)
    }

    /// A step in four, where its deck is one, also with residuals of any number and size in the place of its own; and a call in eight
    /// that takes starts with others.
    pub fn call(&mut self, lent: &mut Lent, call: Call) -> u64 {
        let other = lent.clone();
        let answer = self.once(lent, call);
        if call.index() < 2 || (1..=4).contains(&(answer & 255)) {
            return answer;
        }
        if call == Call::Step && self.chance.one_in(4) {
            let mut other = other.clone();
            other.carried = carried::any(&mut self.chance, &other);
            self.once(&mut other, call);
        }
        if self.chance.one_in(8) {
            let mut other = other;
            other.starts = rows::any(&mut self.chance, &other);
            self.once(&mut other, call);
        }
        answer
    }

    fn once(&mut self, lent: &mut Lent, call: Call) -> u64 {
        lent.part = [u64::MAX, 5];
        let case = Case {
            call,
            lent: std::mem::take(lent),
        };
        let right = case.by_reference();
        self.met[call.index()][(right.answer & 255) as usize] += 1;
        self.things.see(call, &case.lent, &right.lent, right.answer);
        if self.files.last().unwrap().before.len() > ENOUGH {
            self.files.push(Cases::default());
        }
        let file = self.files.last_mut().unwrap();
        write(&mut file.before, call, &case.lent, 0);
        write(&mut file.after, call, &right.lent, right.answer);
        *lent = right.lent;
        right.answer
    }

    /// A build of the deck as it is, into buffers that held something else.
    pub fn as_built(&mut self, lent: &Lent, replaced: [u32; 2]) {
        let mut anew = lent.clone();
        anew.matrices[..3]
            .iter_mut()
            .for_each(|matrix| matrix.fill(0));
        anew.starts.fill(u32::MAX);
        if self.call(&mut anew, Call::Build) == 0 {
            self.things.as_built(replaced);
        }
    }

    pub fn cases(&self) -> u32 {
        self.met.iter().flatten().sum()
    }

    /// DIR/lent/1 and so on, and DIR/left/1; how many.
    pub fn write(&self, folder: &Path) -> io::Result<usize> {
        for part in ["lent", "left"] {
            fs::create_dir_all(folder.join(part))?;
        }
        for (number, file) in (1..).zip(&self.files) {
            fs::write(folder.join(format!("lent/{number}")), &file.before)?;
            fs::write(folder.join(format!("left/{number}")), &file.after)?;
        }
        Ok(self.files.len())
    }
}

/// As the module's struct lent and its buffers lie in memory; both processors count from the low byte.
fn write(to: &mut Vec<u8>, call: Call, lent: &Lent, answer: u64) {
    let (card, new) = match call {
        Call::Replace { card, new } => (card, new),
        _ => (0, [0; 6]),
    };
    let [p, a, factor, work] = &lent.matrices;
    let numbers = [p, a, factor, work, &lent.temperatures, &lent.carried];
    let words = |to: &mut Vec<u8>, words: &[u32]| {
        to.extend(words.iter().flat_map(|word| word.to_le_bytes()))
    };
    for number in [answer, lent.part[0], lent.part[1]] {
        to.extend(number.to_le_bytes());
    }
    words(to, &[call.index() as u32, card]);
    words(to, &new);
    words(to, &numbers.map(|buffer| buffer.len() as u32));
    // The last fills it up to a multiple of 8 bytes.
    let [table, starts, bytes] = [lent.table.len(), lent.starts.len(), lent.bytes.len()];
    words(to, &[table as u32, starts as u32, bytes as u32, 0]);
    for number in numbers.into_iter().flatten() {
        to.extend(number.to_le_bytes());
    }
    words(to, &lent.table);
    words(to, &lent.starts);
    to.extend(&lent.bytes);
    to.resize(to.len().next_multiple_of(8), 0);
}
