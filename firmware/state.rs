//! `struct press_machine` as include/press.h tells of it, and document 01: when a state is fit, what loading leaves, and what each call does to a fit state,
//! also to one that no loading leads to. Written from those texts alone, part by part and step by step.

use crate::schedule::SignalSchedule;
use crate::table::{refuse, Access, Instance, Refusal, Table};

pub const NONE: u16 = 65_535;
pub const MOST_USES: u16 = 4_096;
pub const WORDS: u16 = 256;
pub const LONGEST: u16 = 10_000;

#[repr(C)]
#[derive(Clone, PartialEq)]
pub struct State {
    pub loaded: u16,
    pub hyper: u16,
    pub periods: [u16; 16],
    pub starts: [u16; 16],
    pub ends: [u16; 16],
    pub counts: [u16; 16],
    pub reads: [[u16; 32]; 16],
    pub writes: [[u16; 32]; 16],
    pub uses: [u16; 4096],
    pub carried: [u16; 32],
    pub held: [u16; 32],
    pub tick: u16,
    pub unused: u16,
    pub defaults: [u32; 32],
    pub store: [u32; 256],
}

pub const BYTES: usize = std::mem::size_of::<State>();

/// Why a state is not fit.
#[derive(Clone, Copy, Debug, PartialEq, Eq)]
pub enum Fault {
    NotLoaded,
    Hyper,
    Tick,
    Count,
    ReadIndex,
    WriteIndex,
    Use,
    Carried,
    Held,
}

impl State {
    /// Every byte 0.
    pub fn new() -> State {
        State {
            loaded: 0,
            hyper: 0,
            periods: [0; 16],
            starts: [0; 16],
            ends: [0; 16],
            counts: [0; 16],
            reads: [[0; 32]; 16],
            writes: [[0; 32]; 16],
            uses: [0; 4096],
            carried: [0; 32],
            held: [0; 32],
            tick: 0,
            unused: 0,
            defaults: [0; 32],
            store: [0; 256],
        }
    }

    pub fn bytes(&self) -> &[u8] {
        unsafe { std::slice::from_raw_parts((self as *const State).cast(), BYTES) }
    }

    pub fn faults(&self) -> Vec<Fault> {
        let past = |list: &[u16]| list.iter().any(|position| *position >= WORDS);
        let lost = |grid: &[[u16; 32]; 16]| (0..16).any(|task| grid[task].iter().any(|first| !self.leads_inside(task, *first)));
        let all = [
            (Fault::NotLoaded, self.loaded != 1),
            (Fault::Hyper, self.hyper == 0 || self.hyper > LONGEST),
            (Fault::Tick, self.tick >= self.hyper),
            (Fault::Count, self.counts.iter().any(|count| *count > MOST_USES)),
            (Fault::ReadIndex, lost(&self.reads)),
            (Fault::WriteIndex, lost(&self.writes)),
            (Fault::Use, past(&self.uses)),
            (Fault::Carried, past(&self.carried)),
            (Fault::Held, past(&self.held)),
        ];
        all.into_iter().filter(|(_, holds)| *holds).map(|(fault, _)| fault).collect()
    }

    fn leads_inside(&self, task: usize, first: u16) -> bool {
        first == NONE || (first < MOST_USES && first as usize + self.counts[task] as usize <= MOST_USES as usize)
    }

    fn fit(&self) -> Result<(), Refusal> {
        if self.faults().is_empty() {
            Ok(())
        } else {
            refuse(25, 0)
        }
    }

    /// The task's instance at this tick, and how far the tick is into its period.
    fn instance(&self, task: usize) -> Option<(u16, u16)> {
        let period = self.periods[task];
        let instance = self.tick.checked_div(period)?;
        (instance < self.counts[task]).then(|| (instance, self.tick % period))
    }

    /// Where the instance has each signal of a row.
    fn positions(&self, row: &[u16; 32], instance: u16) -> Vec<(usize, u16)> {
        let accesses = (0..32).filter(|signal| row[*signal] != NONE);
        accesses.map(|signal| (signal, self.uses[(row[signal] + instance) as usize])).collect()
    }

    pub fn step(&mut self) -> Result<(), Refusal> {
        self.fit()?;
        for task in 0..16 {
            if let Some((instance, _)) = self.instance(task).filter(|(_, into)| into + 1 == self.ends[task]) {
                for (signal, position) in self.positions(&self.writes[task], instance) {
                    self.held[signal] = position;
                }
            }
        }
        self.tick += 1;
        if self.tick == self.hyper {
            for signal in 0..32 {
                self.store[self.carried[signal] as usize] = self.store[self.held[signal] as usize];
            }
            self.held = self.carried;
            self.tick = 0;
        }
        self.open();
        Ok(())
    }

    fn open(&mut self) {
        for task in 0..16 {
            if let Some((instance, _)) = self.instance(task).filter(|(_, into)| *into == self.starts[task]) {
                for (signal, position) in self.positions(&self.writes[task], instance) {
                    self.store[position as usize] = self.defaults[signal];
                }
            }
        }
    }

    fn inside(&self, task: usize) -> Result<u16, Refusal> {
        match self.instance(task) {
            Some((instance, into)) if self.starts[task] <= into && into < self.ends[task] => Ok(instance),
            _ => refuse(24, 0),
        }
    }

    fn place(&self, grid: &[[u16; 32]; 16], task: u64, signal: u64) -> Result<usize, Refusal> {
        self.fit()?;
        if task >= 16 || signal >= 32 || grid[task as usize][signal as usize] == NONE {
            return refuse(23, 0);
        }
        let first = grid[task as usize][signal as usize];
        Ok(self.uses[(first + self.inside(task as usize)?) as usize] as usize)
    }

    pub fn read(&self, task: u64, signal: u64) -> Result<u32, Refusal> {
        Ok(self.store[self.place(&self.reads, task, signal)?])
    }

    pub fn write(&mut self, task: u64, signal: u64, word: u32) -> Result<(), Refusal> {
        let place = self.place(&self.writes, task, signal)?;
        self.store[place] = word;
        Ok(())
    }

    pub fn open_instance(&self, task: u64) -> Result<u16, Refusal> {
        self.fit()?;
        if task >= 16 || self.counts[task as usize] == 0 {
            return refuse(23, 0);
        }
        self.inside(task as usize)
    }

    /// What an accepted loading leaves.
    pub fn load(&mut self, table: &Table, schedule: &[SignalSchedule]) {
        *self = State {
            loaded: 1,
            hyper: table.hyper as u16,
            reads: [[NONE; 32]; 16],
            writes: [[NONE; 32]; 16],
            unused: self.unused,
            ..State::new()
        };
        for (task, window) in table.tasks.iter().enumerate() {
            self.periods[task] = window.period as u16;
            self.starts[task] = window.start as u16;
            self.ends[task] = window.end as u16;
            self.counts[task] = table.instances(task) as u16;
        }
        let (mut used, mut base) = (0, 0);
        for (signal, part) in schedule.iter().enumerate() {
            self.defaults[signal] = table.defaults[signal];
            self.store[base..base + part.count as usize].fill(table.defaults[signal]);
            self.carried[signal] = base as u16;
            for (access, records) in [(Access::Write, &part.writers), (Access::Read, &part.readers)] {
                for record in records {
                    self.place_use(signal, access, record, base, used);
                    used += 1;
                }
            }
            base += part.count as usize;
        }
        self.held = self.carried;
        self.open();
    }

    fn place_use(&mut self, signal: usize, access: Access, (instance, element): &(Instance, u8), base: usize, used: usize) {
        let grid = if access == Access::Read { &mut self.reads } else { &mut self.writes };
        if instance.number == 0 {
            grid[instance.task][signal] = used as u16;
        }
        self.uses[used] = (base + *element as usize) as u16;
    }
}
