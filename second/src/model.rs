//! Reads from the history alone: no elements, no schedule, no hyper-period.

use crate::table::{refuse, Access, Refusal, Table, Task};

/// One accepted write at an absolute tick since loading.
struct Written {
    tick: u64,
    task: usize,
    signal: usize,
    word: u32,
}

pub struct Model {
    tasks: Vec<Task>,
    defaults: Vec<u32>,
    accesses: Vec<(usize, usize, Access)>,
    now: u64,
    history: Vec<Written>,
}

impl Model {
    pub fn new(table: &Table) -> Model {
        Model {
            tasks: table.tasks.clone(),
            defaults: table.defaults.clone(),
            accesses: table.accesses.clone(),
            now: 0,
            history: Vec::new(),
        }
    }

    pub fn step(&mut self) {
        self.now += 1;
    }

    pub fn write(&mut self, task: u64, signal: u64, word: u32) -> Result<(), Refusal> {
        self.opening(task, signal, Access::Write)?;
        self.history.push(Written {
            tick: self.now,
            task: task as usize,
            signal: signal as usize,
            word,
        });
        Ok(())
    }

    pub fn read(&self, task: u64, signal: u64) -> Result<u32, Refusal> {
        let opening = self.opening(task, signal, Access::Read)?;
        Ok(self.standing(signal as usize, opening))
    }

    /// The absolute opening of the window the task is inside now.
    fn opening(&self, task: u64, signal: u64, access: Access) -> Result<u64, Refusal> {
        if !self
            .accesses
            .iter()
            .any(|have| (have.0 as u64, have.1 as u64, have.2) == (task, signal, access))
        {
            return refuse(23, 0);
        }
        let task = self.tasks[task as usize];
        let frame = self.now - self.now % task.period as u64;
        let (opening, closing) = (frame + task.start as u64, frame + task.end as u64);
        if self.now < opening || self.now >= closing {
            return refuse(24, 0);
        }
        Ok(opening)
    }

    /// The value standing at an absolute tick: the latest published at or before it, else the default.
    fn standing(&self, signal: usize, tick: u64) -> u32 {
        let mut latest: Option<(u64, u64, usize)> = None;
        for (writer, written, access) in &self.accesses {
            if *written == signal && *access == Access::Write {
                let window = last_closed(&self.tasks[*writer], tick)
                    .map(|(from, until)| (until, from, *writer));
                latest = latest.max(window);
            }
        }
        match latest {
            None => self.defaults[signal],
            Some((until, from, writer)) => self.published(signal, writer, from, until),
        }
    }

    fn published(&self, signal: usize, writer: usize, from: u64, until: u64) -> u32 {
        let inside = |w: &&Written| {
            w.task == writer && w.signal == signal && from <= w.tick && w.tick < until
        };
        self.history
            .iter()
            .rev()
            .find(inside)
            .map_or(self.defaults[signal], |written| written.word)
    }
}

/// The last window of the task that closed at or before the tick.
fn last_closed(task: &Task, tick: u64) -> Option<(u64, u64)> {
    let period = task.period as u64;
    let window = |i: u64| (i * period + task.start as u64, i * period + task.end as u64);
    (0..=tick / period)
        .rev()
        .map(window)
        .find(|(_, until)| *until <= tick)
}
