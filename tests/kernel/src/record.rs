//! The commands, one a line, and what the guest shows of each.

use crate::decks::{triangle, Chance, G, NUMBERS, V};
use crate::model::{Model, Zones};
use crate::trial::Trial;
use crate::words;
use reference::{Answer, Card, Stepped, MAX_NODES};
use std::path::Path;
use std::{fs, io};

pub struct Record {
    pub chance: Chance,
    numbers: usize,
    pub model: Model,
    /// The words of the last answer.
    answer: String,
    commands: Vec<String>,
    decks: Vec<Vec<u8>>,
    /// The decks that stack traces are taken with, a flat one and a solid one.
    pub traced: [Vec<u8>; 2],
    shown: Vec<String>,
    /// Accepted calls, and refused ones by number: decks, replacements, writes of steps.
    pub met: [[u32; NUMBERS]; 3],
    /// Of the replacements, those by a G card.
    pub edges: [u32; NUMBERS],
    /// And those by a V card.
    pub solids: [u32; NUMBERS],
    /// Zones that were set, by answer.
    pub zones: [u32; ZONE_NUMBERS],
}

/// As many as there are refusals, and acceptance: 18 and 19 are of zones.
pub const ZONE_NUMBERS: usize = 20;

fn number_of(answer: Answer) -> usize {
    (answer.packed() & 255) as usize
}

impl Record {
    /// For a module with room for any deck.
    pub fn new(seed: u64) -> Record {
        Record::with_room(seed, triangle(MAX_NODES))
    }

    /// For one whose matrices have room for so many numbers.
    pub fn with_room(seed: u64, numbers: usize) -> Record {
        Record {
            chance: Chance::seeded(seed),
            numbers,
            model: Model::new(numbers),
            answer: "no answer".to_string(),
            commands: vec![],
            decks: vec![],
            traced: [vec![], vec![]],
            shown: vec![],
            met: [[0; NUMBERS]; 3],
            edges: [0; NUMBERS],
            solids: [0; NUMBERS],
            zones: [0; ZONE_NUMBERS],
        }
    }

    fn command(&mut self, line: String) {
        self.shown
            .push(format!("{} {line}", self.commands.len() + 1));
        self.commands.push(line);
    }

    /// After every command but `back`: the answer, the temperatures, what is carried and the bands.
    fn show(&mut self) {
        self.shown.push(self.answer.clone());
        for numbers in [&self.model.temperatures, &self.model.carried] {
            let numbers: Vec<String> = numbers.iter().map(i64::to_string).collect();
            self.shown.push(numbers.join(" "));
        }
        let bands: Vec<String> = self.model.bands().iter().map(u32::to_string).collect();
        self.shown.push(bands.join(" "));
    }

    pub fn zones(&mut self, zones: Zones) {
        self.command(format!("zones {}", zones.text()).trim_end().to_string());
        let answer = self.model.set_zones(zones);
        self.zones[number_of(answer)] += 1;
        self.answer = words::answered(answer);
        self.show();
    }

    pub fn deck(&mut self, bytes: &[u8]) {
        self.command(format!("deck {}-{}", self.numbers, self.decks.len()));
        self.decks.push(bytes.to_vec());
        let answer = self.model.deck(bytes);
        self.met[0][number_of(answer)] += 1;
        self.answer = words::answered(answer);
        self.show();
    }

    pub fn replace(&mut self, card: u32, new: Card) {
        let fields = new.map(|number| number.to_string()).join(" ");
        self.command(format!("replace {card} {fields}"));
        let answer = self.model.replace(card, new);
        self.met[1][number_of(answer)] += 1;
        self.edges[number_of(answer)] += u32::from(new[0] == G);
        self.solids[number_of(answer)] += u32::from(new[0] == V);
        self.answer = words::answered(answer);
        self.show();
    }

    pub fn steps(&mut self, wanted: u32) {
        self.command(format!("steps {wanted}"));
        let (last, done) = self.model.steps(wanted);
        let number = match last {
            Stepped::Settled(_) => 0,
            Stepped::Refused(refusal) => usize::from(refusal.number),
        };
        self.met[2][number] += 1;
        self.answer = words::stepped(last, done);
        self.show();
    }

    /// A line that is no call: the module doesn't take it.
    pub fn nonsense(&mut self, line: &str) {
        self.command(line.to_string());
        self.shown.push("not taken".to_string());
        self.show();
    }

    /// The deck as bytes, each newline with a mark before it.
    pub fn back(&mut self) {
        self.command("back".to_string());
        let text = String::from_utf8(self.model.bytes()).expect("a deck is text");
        self.shown
            .extend(text.lines().map(|line| format!("{line}$")));
    }

    /// The commands, one a line, and the decks that they name.
    fn lay(&self, plan: &Path, name: &str) -> io::Result<()> {
        for (number, bytes) in self.decks.iter().enumerate() {
            fs::write(plan.join(format!("{}-{number}", self.numbers)), bytes)?;
        }
        fs::write(plan.join(name), self.commands.join("\n") + "\n")
    }

    /// Writes it all, and says how much it is. The few are for a module with room for so many numbers as DIR/plan/numbers says.
    pub fn write(mut self, few: Record, trial: Trial, folder: &Path) -> io::Result<String> {
        let plan = folder.join("plan");
        fs::create_dir_all(&plan)?;
        self.lay(&plan, "commands")?;
        few.lay(&plan, "few")?;
        fs::write(plan.join("numbers"), format!("{}\n", few.numbers))?;
        self.shown.extend(few.shown);
        for (name, deck) in ["flat", "solid"].iter().zip(&self.traced) {
            fs::write(plan.join(name), deck)?;
        }
        let files = trial.write(&plan)?;
        self.shown
            .extend((1..=files).map(|number| format!("lent {number}: as it should be")));
        self.shown.extend(["taint 0", "end"].map(str::to_string));
        fs::write(folder.join("expected"), self.shown.join("\n") + "\n")?;
        let [decks, replacements, steps] = self.met.map(|met| {
            let refused: u32 = met[1..].iter().sum();
            format!("{} accepted and {refused} refused", met[0])
        });
        Ok(format!(
            "{} commands; decks {decks}, replacements {replacements}, steps {steps}, zones {} accepted and {} refused; {} cases of lent buffers",
            self.commands.len(),
            self.zones[0],
            self.zones[1..].iter().sum::<u32>(),
            trial.cases()
        ))
    }
}
