//! The console language: one line in, one answer out (several for `list`).

use crate::check::check;
use crate::hex::{from_hex, to_hex};
use crate::listing::listing;
use crate::machine::Machine;
use crate::plan::{live_list, plan, LiveRecord};
use crate::table::{read_table, Refusal, Table};
use std::fmt::Write as _;
use std::io::{self, BufRead, Write};

const MAX_PLAN: u64 = 29_000;
const MAX_LIVE: u64 = 600;
const MAX_STEPS: u64 = 1_000_000;

const BEFOREHAND: LiveRecord = LiveRecord {
    task: 170,
    instance: 43_690,
    from: 2_863_311_530,
    until: 2_863_311_530,
    element: 170,
};

pub struct Console {
    table: Result<Table, Refusal>,
    machine: Machine,
}

pub fn run(mut input: impl BufRead, mut output: impl Write) -> io::Result<()> {
    let mut console = Console::new();
    let mut line = Vec::new();
    loop {
        line.clear();
        if input.read_until(b'\n', &mut line)? == 0 {
            return output.flush();
        }
        if line.last() == Some(&b'\n') {
            line.pop();
        }
        if let Some(answer) = console.answer(&line) {
            output.write_all(answer.as_bytes())?;
            // Who asked may wait for it before he asks on.
            output.flush()?;
        }
    }
}

impl Console {
    /// Before any `table` the kept table has no bytes.
    pub fn new() -> Console {
        Console {
            table: read_table(&[]),
            machine: Machine::default(),
        }
    }

    /// The whole answer with its line feeds; nothing for an empty line or a comment.
    pub fn answer(&mut self, line: &[u8]) -> Option<String> {
        if line.is_empty() || line[0] == b'#' {
            return None;
        }
        Some(
            self.command(line)
                .unwrap_or_else(|| "bad line\n".to_string()),
        )
    }

    fn command(&mut self, line: &[u8]) -> Option<String> {
        let words: Vec<&[u8]> = line.split(|byte| *byte == b' ').collect();
        match words[..] {
            [b"table", hex] => Some(self.table(from_hex(hex)?)),
            [b"plan", len] => Some(self.plan(number(len, MAX_PLAN)?)),
            [b"live", signal, len] => {
                Some(self.live(number(signal, u64::MAX)?, number(len, MAX_LIVE)?))
            }
            [b"check", hex] => Some(self.check(from_hex(hex)?)),
            [b"load", hex] => Some(self.load(from_hex(hex)?)),
            [b"step"] => Some(self.step(1)),
            [b"step", steps] => Some(self.step(number(steps, MAX_STEPS)?)),
            [b"read", task, signal] => {
                Some(self.read(number(task, u64::MAX)?, number(signal, u64::MAX)?))
            }
            [b"write", task, signal, word] => {
                let word = number(word, u32::MAX as u64)? as u32;
                Some(self.write(number(task, u64::MAX)?, number(signal, u64::MAX)?, word))
            }
            [b"list"] => Some(listing(&self.table)),
            _ => None,
        }
    }

    fn kept(&self) -> Result<&Table, Refusal> {
        self.table.as_ref().map_err(|refusal| *refusal)
    }

    fn table(&mut self, bytes: Vec<u8>) -> String {
        self.table = read_table(&bytes);
        let hyper = self.kept().map_or(0, |table| table.hyper);
        format!("{} {}\n", pair(self.kept().map(|_| 0)), hyper)
    }

    fn plan(&self, len: u64) -> String {
        let mut buffer = vec![0xAA; len as usize];
        let answer = self.kept().and_then(|table| plan(table, &mut buffer));
        format!("{} {}\n", pair(answer), to_hex(&buffer))
    }

    fn live(&self, signal: u64, len: u64) -> String {
        let mut list = vec![BEFOREHAND; len as usize];
        let answer = self
            .kept()
            .and_then(|table| live_list(table, signal, &mut list));
        let mut text = pair(answer);
        for r in &list {
            let _ = write!(
                text,
                " {}.{}.{}.{}.{}",
                r.task, r.instance, r.from, r.until, r.element
            );
        }
        text + "\n"
    }

    fn check(&self, bytes: Vec<u8>) -> String {
        pair(
            self.kept()
                .and_then(|table| check(table, &bytes))
                .map(|_| 0),
        ) + "\n"
    }

    fn load(&mut self, bytes: Vec<u8>) -> String {
        let table = match &self.table {
            Ok(table) => table,
            Err(refusal) => return pair(Err(*refusal)) + "\n",
        };
        pair(self.machine.load(table, &bytes).map(|_| 0)) + "\n"
    }

    fn step(&mut self, steps: u64) -> String {
        let answer = (0..steps).try_for_each(|_| self.machine.step());
        pair(answer.map(|_| 0)) + "\n"
    }

    fn read(&self, task: u64, signal: u64) -> String {
        let answer = self.machine.read(task, signal);
        format!("{} {}\n", pair(answer.map(|_| 0)), answer.unwrap_or(0))
    }

    fn write(&mut self, task: u64, signal: u64, word: u32) -> String {
        pair(self.machine.write(task, signal, word).map(|_| 0)) + "\n"
    }
}

/// Number and place; `Ok` holds the place of number 0.
fn pair(answer: Result<usize, Refusal>) -> String {
    match answer {
        Ok(place) => format!("0 {}", place),
        Err(refusal) => format!("{} {}", refusal.number, refusal.place),
    }
}

/// One or more decimal digits, at most `most`.
fn number(word: &[u8], most: u64) -> Option<u64> {
    if word.is_empty() {
        return None;
    }
    let mut value: u64 = 0;
    for byte in word {
        if !byte.is_ascii_digit() {
            return None;
        }
        value = value.checked_mul(10)?.checked_add((byte - b'0') as u64)?;
    }
    (value <= most).then_some(value)
}
