//! Scripts in the console language, line by line, and blocks of lines that belong together.

use crate::check::check;
use crate::draft::{figure_a, Draft};
use crate::hex::to_hex;
use crate::plan::plan_schedule;
use crate::random;
use crate::rng::Rng;
use crate::schedule::{schedule_bytes, SignalSchedule};
use crate::table::{read_table, Access, Table};
use crate::vary::{overfull, passing, variant};
use std::ops::Range;

#[derive(Default)]
pub struct Script {
    pub text: Vec<u8>,
    pub lines: usize,
}

/// Lines that are no command.
const BAD: [&str; 40] = [
    " ",
    "tables",
    "table",
    "table ",
    "table  454E",
    " table 454E",
    "table 454E ",
    "table 454",
    "table 45 4E",
    "table 45G4",
    "table --",
    "table -4",
    "TABLE 454E",
    "table\t454E",
    "list ",
    "list x",
    "listing",
    "plan",
    "plan -",
    "plan 29001",
    "plan 0x1",
    "plan 1 1",
    "plan -1",
    "plan 18446744073709551616",
    "live 0",
    "live 0 601",
    "live  0 1",
    "live 0 1 1",
    "check",
    "check 4",
    "load",
    "load 454e 454e",
    "step 1000001",
    "step 1 1",
    "step +1",
    "read 0",
    "read 0 0 0",
    "write 0 0",
    "write 0 0 4294967296",
    "write 0 0 1 1",
];

/// Numbers of tasks and signals that no table has, and some that one may have.
const FAR: [u64; 10] = [0, 1, 15, 16, 31, 32, 255, 256, 4_294_967_296, u64::MAX];

impl Script {
    pub fn line(&mut self, line: &str) {
        self.raw(line.as_bytes());
    }

    pub fn raw(&mut self, line: &[u8]) {
        self.text.extend(line);
        self.text.push(b'\n');
        self.lines += 1;
    }

    pub fn bytes(&mut self, word: &str, bytes: &[u8]) {
        self.line(&format!("{} {}", word, to_hex(bytes)));
    }

    /// The same with digits of either case.
    pub fn any_case(&mut self, rng: &mut Rng, word: &str, bytes: &[u8]) {
        let hex = to_hex(bytes);
        match rng.below(8) {
            0 => self.line(&format!("{} {}", word, hex.to_lowercase())),
            1 => {
                let mixed: String = hex
                    .chars()
                    .map(|c| {
                        if rng.one_in(2) {
                            c.to_ascii_lowercase()
                        } else {
                            c
                        }
                    })
                    .collect();
                self.line(&format!("{} {}", word, mixed));
            }
            _ => self.line(&format!("{} {}", word, hex)),
        }
    }

    pub fn noise(&mut self, rng: &mut Rng) {
        match rng.below(4) {
            0 => self.line(""),
            1 => self.line("# a comment"),
            _ => self.line(rng.pick(&BAD)),
        }
    }

    /// Any bytes at all but a line feed; `#` at the front would make a comment, which is as good.
    pub fn binary_noise(&mut self, rng: &mut Rng) {
        let bytes: Vec<u8> = (0..1 + rng.below(30))
            .map(|_| rng.next() as u8)
            .filter(|byte| *byte != b'\n')
            .collect();
        self.raw(&bytes);
    }

    pub fn every_bad_line(&mut self) {
        for line in BAD {
            self.line(line);
        }
        for line in [
            "table 454E\r",
            "\r",
            "\t",
            "step 18446744073709551616",
            "read 18446744073709551616 0",
        ] {
            self.line(line);
        }
    }

    /// The table, then plans with the buffer long enough, one short, empty and longer; `most` bounds the buffers.
    pub fn plans(&mut self, rng: &mut Rng, bytes: &[u8], most: usize) {
        self.any_case(rng, "table", bytes);
        let needed = planned(bytes).map_or(rng.below(40), |plan| schedule_bytes(&plan).len());
        let longer = needed + 1 + rng.below(20);
        let mut lengths = vec![needed];
        lengths.extend(rng.pick(&[
            None,
            Some(needed.saturating_sub(1)),
            Some(0),
            Some(needed / 2),
        ]));
        lengths.extend(rng.pick(&[None, None, Some(longer)]));
        for length in lengths {
            self.line(&format!("plan {}", if length <= most { length } else { 0 }));
        }
        if rng.one_in(3) {
            self.line("list");
        }
    }

    /// The table, then live lists with lengths exact, one short, empty and longer.
    pub fn lives(&mut self, rng: &mut Rng, bytes: &[u8]) {
        self.any_case(rng, "table", bytes);
        let table = read_table(bytes).unwrap_or_default();
        for signal in 0..table.defaults.len().min(4) {
            let signal = if table.defaults.len() > 4 {
                rng.below(table.defaults.len())
            } else {
                signal
            };
            let needed = table.users(signal, Access::Write).len() + 1;
            self.line(&format!("live {} {}", signal, needed));
            let longer = needed + rng.below(5);
            let other = rng.pick(&[0, needed - 1, needed + 1, longer]);
            self.line(&format!("live {} {}", signal, other));
        }
        for signal in [table.defaults.len() as u64, rng.pick(&FAR)] {
            self.line(&format!("live {} {}", signal, rng.below(3)));
        }
    }

    /// The table, then `lines` schedules of every kind.
    pub fn checks(&mut self, rng: &mut Rng, bytes: &[u8], lines: usize) {
        self.any_case(rng, "table", bytes);
        let (table, plan) = match (read_table(bytes), planned(bytes)) {
            (Ok(table), Some(plan)) => (table, plan),
            _ => return self.line("check 454E"),
        };
        for _ in 0..lines {
            let schedule = variant(rng, &table, &plan);
            self.any_case(rng, "check", &schedule);
        }
    }

    /// The table and a loading, then calls over three hyper-periods or more.
    pub fn machine(&mut self, rng: &mut Rng, bytes: &[u8], calls: usize) {
        self.any_case(rng, "table", bytes);
        let (table, plan) = match (read_table(bytes), planned(bytes)) {
            (Ok(table), Some(plan)) => (table, plan),
            _ => return self.unfit(rng),
        };
        let mut schedule = plan.clone();
        if !rng.one_in(3) {
            schedule = passing(rng, &table).unwrap_or(schedule);
        }
        self.bytes("load", &schedule_bytes(&schedule));
        let mut ticks = 0;
        for _ in 0..calls {
            match rng.below(30) {
                0 => self.refused_load(rng, bytes, &table, &plan),
                1..=11 => ticks += self.steps(rng, &table, ticks % table.hyper),
                12 => self.far_call(rng),
                _ => self.near_call(rng, &table, ticks % table.hyper),
            }
        }
        while ticks < 3 * table.hyper {
            ticks += self.steps(rng, &table, ticks % table.hyper);
            self.near_call(rng, &table, ticks % table.hyper);
        }
    }

    /// A machine that runs on through loadings whose counts sum above 256.
    pub fn overfull_loads(&mut self, rng: &mut Rng, mut draft: Draft) {
        let signals = draft.defaults.len().max(9 + rng.below(24));
        draft.defaults.resize(signals, random::word(rng));
        let table = read_table(&draft.bytes()).expect("accepted");
        let Some(schedule) = passing(rng, &table) else {
            return;
        };
        self.any_case(rng, "table", &draft.bytes());
        self.bytes("load", &schedule_bytes(&schedule));
        let mut ticks = 0;
        for _ in 0..4 {
            for _ in 0..3 {
                self.near_call(rng, &table, ticks % table.hyper);
                ticks += self.steps(rng, &table, ticks % table.hyper);
            }
            self.near_call(rng, &table, ticks % table.hyper);
            let refused = overfull(rng, &table).expect("a plan exists");
            self.bytes("load", &refused);
            self.near_call(rng, &table, ticks % table.hyper);
        }
    }

    /// A loading, then every access around instance 256 of the fastest task and on both sides of H, twice.
    pub fn late_calls(&mut self, rng: &mut Rng, draft: &Draft) {
        let table = read_table(&draft.bytes()).expect("accepted");
        let schedule = passing(rng, &table).expect("a plan exists");
        self.any_case(rng, "table", &draft.bytes());
        self.bytes("load", &schedule_bytes(&schedule));
        let (period, hyper) = (draft.shortest_period(), table.hyper);
        let mut ticks = 0;
        for start in [0, hyper] {
            for (from, until) in [
                (0, 2 * period),
                (255 * period, 258 * period),
                (hyper - 2 * period, hyper),
            ] {
                ticks = self.calls_between(rng, &table, ticks, start + from..start + until);
            }
        }
        self.every_call(rng, &table);
    }

    /// Steps to the range and through it, with every access at each change of windows; gives the ticks after.
    fn calls_between(
        &mut self,
        rng: &mut Rng,
        table: &Table,
        mut ticks: u32,
        range: Range<u32>,
    ) -> u32 {
        if ticks < range.start {
            self.line(&format!("step {}", range.start - ticks));
            ticks = range.start;
        }
        while ticks < range.end {
            self.every_call(rng, table);
            let tick = ticks % table.hyper;
            let steps = (next_change(table, tick) - tick).min(range.end - ticks);
            self.line(&format!("step {}", steps));
            ticks += steps;
        }
        ticks
    }

    fn every_call(&mut self, rng: &mut Rng, table: &Table) {
        for (task, signal, access) in &table.accesses {
            self.call(rng, *task as u64, *signal as u64, *access);
        }
    }

    /// A loading and calls while the kept table is refused.
    fn unfit(&mut self, rng: &mut Rng) {
        self.line("load 454E");
        for _ in 0..3 {
            self.far_call(rng);
        }
        self.line("step");
    }

    /// How many steps it asks for.
    fn steps(&mut self, rng: &mut Rng, table: &Table, tick: u32) -> u32 {
        let steps = match rng.below(12) {
            0 => rng.below(table.hyper as usize * 2 + 1) as u32,
            1 => table.hyper,
            2 => rng.between(0, 20),
            3 => table.hyper - tick,
            4..=6 => next_change(table, tick) - tick,
            _ => 1,
        };
        if steps == 1 && !rng.one_in(8) {
            self.line("step");
        } else {
            self.line(&format!("step {}", steps));
        }
        steps
    }

    /// Mostly one that is inside its window now.
    fn near_call(&mut self, rng: &mut Rng, table: &Table, tick: u32) {
        let inside = |task: usize| {
            let window = table.tasks[task];
            (window.start..window.end).contains(&(tick % window.period))
        };
        let open: Vec<_> = table
            .accesses
            .iter()
            .filter(|access| inside(access.0))
            .copied()
            .collect();
        let from = if open.is_empty() || rng.one_in(10) {
            &table.accesses
        } else {
            &open
        };
        if from.is_empty() {
            return self.far_call(rng);
        }
        let (task, signal, access) = rng.pick(from);
        self.call(rng, task as u64, signal as u64, access);
    }

    fn call(&mut self, rng: &mut Rng, task: u64, signal: u64, access: Access) {
        match access {
            Access::Read => self.line(&format!("read {} {}", task, signal)),
            Access::Write => self.line(&format!("write {} {} {}", task, signal, random::word(rng))),
        }
    }

    fn far_call(&mut self, rng: &mut Rng) {
        let task = if rng.one_in(2) {
            rng.below(4) as u64
        } else {
            rng.pick(&FAR)
        };
        let signal = if rng.one_in(2) {
            rng.below(4) as u64
        } else {
            rng.pick(&FAR)
        };
        let access = rng.pick(&[Access::Read, Access::Write]);
        self.call(rng, task, signal, access);
    }

    /// A loading that is refused, sometimes by a table that is refused itself; the old machine runs on.
    fn refused_load(
        &mut self,
        rng: &mut Rng,
        bytes: &[u8],
        table: &Table,
        plan: &[SignalSchedule],
    ) {
        match rng.below(6) {
            0 => {
                self.line("table 54");
                self.bytes("load", &schedule_bytes(plan));
            }
            1 => {
                self.bytes("table", &figure_a().bytes());
                self.line("load 4246");
            }
            _ => {
                let schedule = variant(rng, table, plan);
                let loads = check(table, &schedule).is_ok();
                return self.bytes(if loads { "check" } else { "load" }, &schedule);
            }
        }
        if !rng.one_in(4) {
            self.bytes("table", bytes);
        }
    }
}

/// The next tick at which a window opens or closes, at most H.
fn next_change(table: &Table, tick: u32) -> u32 {
    let changes = |at: u32| {
        table
            .tasks
            .iter()
            .any(|t| at % t.period == t.start || at % t.period == t.end % t.period)
    };
    (tick + 1..table.hyper)
        .find(|at| changes(*at))
        .unwrap_or(table.hyper)
}

pub fn planned(bytes: &[u8]) -> Option<Vec<SignalSchedule>> {
    plan_schedule(&read_table(bytes).ok()?).ok()
}
