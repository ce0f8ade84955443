//! Follows a script beside the console and counts what the numbers of the answers do not tell.

use crate::hex::from_hex;
use crate::table::{read_table, Table};
use std::collections::BTreeMap;

pub type Notes = BTreeMap<String, u64>;

/// From here on an instance has a high byte.
const LATE: u32 = 256;

#[derive(Default)]
pub struct Watch {
    kept: Option<Table>,
    loaded: Option<Table>,
    /// Steps since the loading.
    ticks: u64,
    pub notes: Notes,
}

impl Watch {
    pub fn follow(&mut self, line: &[u8], answer: &str) {
        let line = String::from_utf8_lossy(line);
        let words: Vec<&str> = line.split(' ').collect();
        let said: Vec<&str> = answer.split_whitespace().collect();
        match (words[0], said[0]) {
            ("table", number) => self.table(&words, number),
            ("load", "0") => self.load(),
            ("step", "0") => self.step(&words),
            ("check" | "plan", "0") => {
                let late = self.kept.as_ref().is_some_and(has_late);
                self.note_late(words[0], late);
            }
            ("check", "21" | "22") => {
                let late = names_late(words[1], said[1]);
                self.note_late(&format!("check {}", said[0]), late);
            }
            ("read" | "write", "0") => {
                let late = self.open(words[1]) >= LATE;
                self.note_late(words[0], late);
            }
            ("list", "hyper") => self.note_late("list", lists_late(answer)),
            ("live", "0") => self.note_late("live", said[2..].iter().any(|record| is_late(record))),
            _ => {}
        }
    }

    fn note(&mut self, what: &str) {
        *self.notes.entry(what.to_string()).or_insert(0) += 1;
    }

    fn note_late(&mut self, command: &str, late: bool) {
        if late {
            self.note(&format!("{} from instance 256 on", command));
        }
    }

    fn table(&mut self, words: &[&str], number: &str) {
        self.kept = None;
        let bytes = from_hex(words.get(1).unwrap_or(&"").as_bytes()).unwrap_or_default();
        match number {
            "0" => self.kept = read_table(&bytes).ok(),
            "8" => self.vast(true_hyper(&bytes)),
            _ => {}
        }
    }

    fn vast(&mut self, hyper: Option<u128>) {
        let hyper = hyper.unwrap_or(u128::MAX);
        if hyper > 1 << 32 {
            self.note("H above 2^32");
        }
        if hyper > 1 << 32 && (1..=10_000).contains(&(hyper as u32)) {
            self.note("H above 2^32 with low bits that pass");
        }
        if hyper > 1 << 64 {
            self.note("H above 2^64");
        }
    }

    fn load(&mut self) {
        self.loaded = self.kept.clone();
        self.ticks = 0;
        let late = self.loaded.as_ref().is_some_and(has_late);
        self.note_late("load", late);
    }

    fn step(&mut self, words: &[&str]) {
        let before = self.ticks;
        self.ticks += words.get(1).map_or(1, |steps| steps.parse().unwrap_or(0));
        let long = self
            .loaded
            .as_ref()
            .map_or(0, |table| 3 * table.hyper as u64);
        if before < long && long <= self.ticks {
            self.note("run over three hyper-periods");
        }
    }

    /// The instance of the task at this tick.
    fn open(&self, task: &str) -> u32 {
        let task: usize = task.parse().unwrap_or(0);
        self.loaded.as_ref().map_or(0, |table| {
            (self.ticks % table.hyper as u64) as u32 / table.tasks[task].period
        })
    }
}

/// Whether its schedules name an instance from 256 on.
fn has_late(table: &Table) -> bool {
    table
        .accesses
        .iter()
        .any(|access| table.instances(access.0) > LATE)
}

/// Whether the WI or RI at this place of a schedule in hex has a high byte.
fn names_late(hex: &str, place: &str) -> bool {
    let bytes = from_hex(hex.as_bytes()).unwrap_or_default();
    let place: usize = place.parse().unwrap_or(0);
    bytes.get(place + 4).is_some_and(|high| *high > 0)
}

fn lists_late(listing: &str) -> bool {
    listing.lines().any(|line| {
        let words: Vec<&str> = line.split(' ').collect();
        matches!(words[0], "write" | "read") && words[2].parse().is_ok_and(|n: u32| n >= LATE)
    })
}

/// A filled record of a live list; what was there beforehand has no instance below 512.
fn is_late(record: &str) -> bool {
    let instance = record.split('.').nth(1).and_then(|word| word.parse().ok());
    instance.is_some_and(|number: u32| (LATE..512).contains(&number))
}

/// The least common multiple of the periods of whole TK records; nothing from 2^128 on.
fn true_hyper(bytes: &[u8]) -> Option<u128> {
    let tasks = bytes
        .chunks_exact(14)
        .take_while(|record| record.starts_with(b"TK"));
    tasks.fold(Some(1), |hyper, record| {
        let hyper: u128 = hyper?;
        let period = record[2..6]
            .iter()
            .fold(0, |sum, byte| sum * 256 + *byte as u128);
        hyper.checked_mul(period / gcd(hyper, period))
    })
}

fn gcd(a: u128, b: u128) -> u128 {
    if b == 0 {
        a
    } else {
        gcd(b, a % b)
    }
}
