//! A board's model as the module keeps it, over the calls of reference/.

use crate::decks::nodes_of;
use reference::kept::{build, replace, step};
use reference::{read, write, zones, Answer, Card, Stepped, MAX_NODES, MAX_ROWS};

pub struct Model {
    pub table: Vec<u32>,
    p: Vec<i64>,
    a: Vec<i64>,
    factor: Vec<i64>,
    work: Vec<i64>,
    starts: Vec<u32>,
    pub temperatures: Vec<i64>,
    pub carried: Vec<i64>,
    zones: Zones,
    /// Three numbers a zone.
    summary: Vec<u32>,
}

/// The band edges, and the nodes of each zone.
#[derive(Clone, Default)]
pub struct Zones {
    pub edges: Vec<u32>,
    pub each: Vec<Vec<u32>>,
}

impl Zones {
    fn counts(&self) -> Vec<u32> {
        self.each.iter().map(|zone| zone.len() as u32).collect()
    }

    /// As the module takes them.
    pub fn text(&self) -> String {
        let list = |numbers: &Vec<u32>| {
            let numbers: Vec<String> = numbers.iter().map(u32::to_string).collect();
            numbers.join(" ")
        };
        let lists: Vec<String> = [&self.edges]
            .into_iter()
            .chain(&self.each)
            .map(list)
            .collect();
        lists.join(";")
    }
}

impl Model {
    /// With room for so many numbers in each matrix.
    pub fn new(numbers: usize) -> Model {
        let matrix = vec![0; numbers];
        Model {
            table: vec![],
            p: matrix.clone(),
            a: matrix.clone(),
            factor: matrix.clone(),
            work: matrix,
            starts: vec![0; MAX_NODES],
            temperatures: vec![],
            carried: vec![],
            zones: Zones::default(),
            summary: vec![],
        }
    }

    /// A deck that is refused leaves the old one.
    pub fn deck(&mut self, bytes: &[u8]) -> Answer {
        let mut table = vec![0; 6 * MAX_ROWS];
        let (answer, start, end) = read(bytes, &mut table);
        if answer != Answer::Done {
            return answer;
        }
        table.truncate((end - start) / 7);
        let Model {
            p,
            a,
            factor,
            work,
            starts,
            ..
        } = self;
        let answer = build(&table, p, a, factor, work, starts);
        if answer == Answer::Done {
            self.temperatures = vec![i64::from(table[2]); nodes_of(&table)];
            self.carried = vec![0; nodes_of(&table)];
            self.table = table;
            self.zones = Zones::default();
        }
        answer
    }

    /// Zones that are refused leave the old ones.
    pub fn set_zones(&mut self, new: Zones) -> Answer {
        let mut summary = vec![0; 3 * new.each.len()];
        let (counts, members) = (new.counts(), new.each.concat());
        let (table, temperatures) = (&self.table, &self.temperatures);
        let answer = zones::summarise(
            table,
            temperatures,
            &counts,
            &members,
            &new.edges,
            &mut summary,
        );
        if answer == Answer::Done {
            (self.zones, self.summary) = (new, summary);
        }
        answer
    }

    /// Of each zone, the band of its coldest node.
    pub fn bands(&self) -> Vec<u32> {
        let zones = 0..self.zones.each.len();
        zones.map(|zone| self.summary[3 * zone + 2]).collect()
    }

    pub fn replace(&mut self, card: u32, new: Card) -> Answer {
        let Model {
            table,
            p,
            a,
            factor,
            work,
            starts,
            ..
        } = self;
        replace(table, p, a, factor, work, starts, card, new)
    }

    /// The last answer, and how many steps were done before a refusal.
    pub fn steps(&mut self, wanted: u32) -> (Stepped, u32) {
        let mut done = 0;
        let (counts, members) = (self.zones.counts(), self.zones.each.concat());
        loop {
            let Model {
                table,
                p,
                a,
                factor,
                starts,
                temperatures,
                carried,
                zones,
                summary,
                ..
            } = self;
            let answer = match zones.each.is_empty() {
                true => step(table, p, a, factor, starts, temperatures, carried),
                false => zones::step(
                    table,
                    p,
                    a,
                    factor,
                    starts,
                    temperatures,
                    carried,
                    &counts,
                    &members,
                    &zones.edges,
                    summary,
                ),
            };
            if let Stepped::Refused(_) = answer {
                return (answer, done);
            }
            done += 1;
            if done == wanted {
                return (answer, done);
            }
        }
    }

    /// The deck as bytes; none before the first deck.
    pub fn bytes(&self) -> Vec<u8> {
        let mut bytes = vec![0; 7 * self.table.len()];
        match write(&self.table, &mut bytes) {
            Answer::Done => bytes,
            Answer::Refused(_) => vec![],
        }
    }
}
