//! The machine with elements, tick by tick.

use crate::check::check;
use crate::schedule::{SignalSchedule, MAX_ELEMENTS};
use crate::table::{refuse, Access, Instance, Refusal, Table, Task};

/// What a loaded machine keeps; neither the table nor the schedule is needed again.
struct Loaded {
    tasks: Vec<Task>,
    hyper: u32,
    tick: u32,
    store: [u32; MAX_ELEMENTS],
    signals: Vec<Signal>,
}

struct Signal {
    default: u32,
    /// Index of its element 0 in the store.
    base: usize,
    /// The element of its last published value in this hyper-period; 0, the carried one, before any.
    last: usize,
    writes: Elements,
    reads: Elements,
}

/// For each task its elements by instance, or nothing without the access.
type Elements = Vec<Option<Vec<u8>>>;

#[derive(Default)]
pub struct Machine {
    loaded: Option<Loaded>,
}

impl Machine {
    /// A refused loading leaves the old history running.
    pub fn load(&mut self, table: &Table, schedule: &[u8]) -> Result<(), Refusal> {
        let schedule = check(table, schedule)?;
        let mut loaded = Loaded {
            tasks: table.tasks.clone(),
            hyper: table.hyper,
            tick: 0,
            store: [0; MAX_ELEMENTS],
            signals: Vec::new(),
        };
        let mut base = 0;
        for (signal, part) in schedule.iter().enumerate() {
            let default = table.defaults[signal];
            loaded.store[base..base + part.count as usize].fill(default);
            loaded.signals.push(kept_signal(table, signal, part, base));
            base += part.count as usize;
        }
        loaded.open();
        self.loaded = Some(loaded);
        Ok(())
    }

    pub fn step(&mut self) -> Result<(), Refusal> {
        match &mut self.loaded {
            None => refuse(25, 0),
            Some(loaded) => {
                loaded.step();
                Ok(())
            }
        }
    }

    pub fn read(&self, task: u64, signal: u64) -> Result<u32, Refusal> {
        let Some(loaded) = &self.loaded else {
            return refuse(25, 0);
        };
        let index = loaded.place(task, signal, Access::Read)?;
        Ok(loaded.store[index])
    }

    pub fn write(&mut self, task: u64, signal: u64, word: u32) -> Result<(), Refusal> {
        let Some(loaded) = &mut self.loaded else {
            return refuse(25, 0);
        };
        let index = loaded.place(task, signal, Access::Write)?;
        loaded.store[index] = word;
        Ok(())
    }

    /// The instance of the task that is inside its window: 25, 23, then 24.
    pub fn open(&self, task: u64) -> Result<u32, Refusal> {
        let Some(loaded) = &self.loaded else {
            return refuse(25, 0);
        };
        if task >= loaded.tasks.len() as u64 {
            return refuse(23, 0);
        }
        loaded.inside(task as usize)
    }
}

fn kept_signal(table: &Table, signal: usize, part: &SignalSchedule, base: usize) -> Signal {
    let elements = |access: Access, list: &[(Instance, u8)]| -> Elements {
        let of = |task: usize| {
            list.iter()
                .filter(|record| record.0.task == task)
                .map(|record| record.1)
                .collect()
        };
        (0..table.tasks.len())
            .map(|task| table.has(task, signal, access).then(|| of(task)))
            .collect()
    };
    Signal {
        default: table.defaults[signal],
        base,
        last: 0,
        writes: elements(Access::Write, &part.writers),
        reads: elements(Access::Read, &part.readers),
    }
}

impl Loaded {
    /// Closings; at H the copy and tick 0; then openings.
    fn step(&mut self) {
        self.tick += 1;
        self.close();
        if self.tick == self.hyper {
            self.carry();
            self.tick = 0;
        }
        self.open();
    }

    fn close(&mut self) {
        for (task, window) in self.tasks.iter().enumerate() {
            let Some(number) = instance_at(self.tick, window.end, window.period) else {
                continue;
            };
            for signal in &mut self.signals {
                if let Some(elements) = &signal.writes[task] {
                    signal.last = elements[number] as usize;
                }
            }
        }
    }

    fn carry(&mut self) {
        for signal in &mut self.signals {
            self.store[signal.base] = self.store[signal.base + signal.last];
            signal.last = 0;
        }
    }

    fn open(&mut self) {
        for (task, window) in self.tasks.iter().enumerate() {
            let Some(number) = instance_at(self.tick, window.start, window.period) else {
                continue;
            };
            for signal in &self.signals {
                if let Some(elements) = &signal.writes[task] {
                    self.store[signal.base + elements[number] as usize] = signal.default;
                }
            }
        }
    }

    /// The store index of the task's open instance: 23, then 24.
    fn place(&self, task: u64, signal: u64, access: Access) -> Result<usize, Refusal> {
        if task >= self.tasks.len() as u64 || signal >= self.signals.len() as u64 {
            return refuse(23, 0);
        }
        let signal = &self.signals[signal as usize];
        let kept = if access == Access::Read {
            &signal.reads
        } else {
            &signal.writes
        };
        let Some(elements) = &kept[task as usize] else {
            return refuse(23, 0);
        };
        let instance = self.inside(task as usize)?;
        Ok(signal.base + elements[instance as usize] as usize)
    }

    fn inside(&self, task: usize) -> Result<u32, Refusal> {
        let window = self.tasks[task];
        let inside = self.tick % window.period;
        if inside < window.start || inside >= window.end {
            return refuse(24, 0);
        }
        Ok(self.tick / window.period)
    }
}

/// The instance i with i * period + offset = tick, where one exists.
fn instance_at(tick: u32, offset: u32, period: u32) -> Option<usize> {
    (tick >= offset && (tick - offset) % period == 0).then(|| ((tick - offset) / period) as usize)
}
