//! The library through its C header, in one process beside the second program: random tables, schedules, states and calls. Each answer and every byte lent is
//! compared, the guard bytes around it too. `random SEED CALLS [bare]` makes CALLS calls or a few more, and prints how many gave which number and how many
//! states were unfit in which way. `bare` lends memory without guard bytes, for a program that watches the heap.

#![allow(dead_code)] // the second program's modules have more than is used here

#[path = "../second/src/check.rs"]
mod check;
#[path = "../second/src/draft.rs"]
mod draft;
mod lent;
#[path = "../second/src/lives.rs"]
mod lives;
#[path = "../second/src/machine.rs"]
mod machine;
#[path = "../second/src/plan.rs"]
mod plan;
#[path = "../second/src/random.rs"]
mod random;
#[path = "../second/src/rng.rs"]
mod rng;
#[path = "../second/src/schedule.rs"]
mod schedule;
mod state;
mod states;
#[path = "../second/src/table.rs"]
mod table;
#[path = "../second/src/vary.rs"]
mod vary;

use lent::Lent;
use plan::LiveRecord;
use rng::Rng;
use schedule::{schedule_bytes, SignalSchedule};
use state::{Fault, State};
use states::WAYS;
use std::ffi::{c_char, CStr};
use table::{read_table, Access, Refusal, Table};

/// `struct press_live_value`.
#[repr(C)]
#[derive(Clone, Copy)]
struct Value {
    task: u8,
    instance: u16,
    from: u32,
    until: u32,
    element: u8,
}

extern "C" {
    fn press_table(table: *const u8, length: usize, place: *mut usize) -> u8;
    fn press_plan(table: *const u8, length: usize, out: *mut u8, room: usize, place: *mut usize) -> u8;
    fn press_check(table: *const u8, length: usize, schedule: *const u8, bytes: usize, place: *mut usize) -> u8;
    fn press_live(table: *const u8, length: usize, signal: usize, list: *mut Value, room: usize, place: *mut usize) -> u8;
    // firmware/calls.c
    fn c_new(machine: *mut State);
    fn c_load(machine: *mut State, table: *const u8, length: usize, schedule: *const u8, bytes: usize, place: *mut usize) -> u8;
    fn c_step(machine: *mut State) -> u8;
    fn c_read(machine: *const State, task: usize, signal: usize, word: *mut u32) -> u8;
    fn c_write(machine: *mut State, task: usize, signal: usize, word: u32) -> u8;
    fn c_open_instance(machine: *const State, task: usize, instance: *mut u16) -> u8;
    fn c_is_open(machine: *const State, task: usize) -> i32;
    fn c_text(number: u32) -> *const c_char;
}

/// What stands in lent memory before a call, so that a byte that a call leaves out is seen.
const FILLER: u8 = 0xAA;

/// Tasks and signals that no table has, and some that one may have.
const FAR: [u64; 9] = [0, 1, 15, 16, 31, 32, 256, 1 << 32, u64::MAX];

struct Both {
    rng: Rng,
    /// The library's machine, and what stands in it by the words of press.h.
    machine: Lent,
    model: State,
    /// Nothing while the machine has a state that no loading leads to.
    second: Option<machine::Machine>,
    calls: usize,
    answers: [usize; 26],
    unfit: [usize; WAYS.len()],
}

/// The number of a call and the place that it leaves.
fn placed(call: impl FnOnce(*mut usize) -> u8) -> (u8, usize) {
    let mut place = Lent::filled(8, FILLER);
    let number = call(place.pointer());
    (number, place.get())
}

impl Both {
    fn new(seed: u64) -> Both {
        let mut machine = Lent::filled(state::BYTES, FILLER);
        unsafe { c_new(machine.pointer()) };
        let second = Some(machine::Machine::default());
        let mut both =
            Both { rng: Rng::new(seed), machine, model: State::new(), second, calls: 0, answers: [0; 26], unfit: [0; WAYS.len()] };
        both.same("new", (0, 0), Ok(0));
        both
    }

    /// A call's number and place beside the right ones, and the machine's bytes after it.
    fn same(&mut self, call: &str, library: (u8, usize), right: Result<usize, Refusal>) {
        let right = match right {
            Ok(place) => (0, place),
            Err(refusal) => (refusal.number as u8, refusal.place),
        };
        assert_eq!(library, right, "call {}: {}", self.calls, call);
        assert!(self.machine.bytes() == self.model.bytes(), "call {}: the machine after {}", self.calls, call);
        assert!(self.machine.is_guarded(), "call {}: the guard bytes of the machine after {}", self.calls, call);
        self.calls += 1;
        self.answers[library.0 as usize] += 1;
    }

    /// What is lent to be read stays.
    fn kept(&self, lent: &mut Lent, bytes: &[u8]) {
        assert!(lent.bytes() == bytes && lent.is_guarded(), "call {}: bytes lent to be read", self.calls);
    }

    fn tables(&mut self, bytes: &[u8]) {
        let mut table = Lent::of(bytes);
        let told = placed(|place| unsafe { press_table(table.pointer(), bytes.len(), place) });
        self.kept(&mut table, bytes);
        self.same("table", told, read_table(bytes).map(|_| 0));
    }

    /// The plan in a buffer just long enough, then in one of another length; bytes beyond it and refused buffers stay.
    fn plans(&mut self, bytes: &[u8], needed: usize) {
        let longer = needed + 1 + self.rng.below(20);
        let other = self.rng.pick(&[0, needed / 2, needed.saturating_sub(1), longer]);
        for room in [needed, other] {
            let mut table = Lent::of(bytes);
            let mut out = Lent::filled(room, FILLER);
            let mut right = vec![FILLER; room];
            let told = placed(|place| unsafe { press_plan(table.pointer(), bytes.len(), out.pointer(), room, place) });
            let second = read_table(bytes).and_then(|table| plan::plan(&table, &mut right));
            self.kept(&mut table, bytes);
            assert!(out.bytes() == right && out.is_guarded(), "call {}: the planned bytes", self.calls);
            self.same("plan", told, second);
        }
    }

    fn checks(&mut self, bytes: &[u8], schedule: &[u8]) {
        let (mut table, mut lent) = (Lent::of(bytes), Lent::of(schedule));
        let told = placed(|place| unsafe { press_check(table.pointer(), bytes.len(), lent.pointer(), schedule.len(), place) });
        self.kept(&mut table, bytes);
        self.kept(&mut lent, schedule);
        let second = read_table(bytes).and_then(|table| check::check(&table, schedule));
        self.same("check", told, second.map(|_| 0));
    }

    /// The live list of a signal in a list of some length; records beyond it and refused lists stay.
    fn lives(&mut self, bytes: &[u8]) {
        let table = read_table(bytes);
        let signals = table.as_ref().map_or(0, |table| table.defaults.len());
        let signal = if signals == 0 || self.rng.one_in(10) { self.rng.pick(&FAR) } else { self.rng.below(signals) as u64 };
        let writers = |table: &Table| if signal < signals as u64 { table.users(signal as usize, Access::Write).len() } else { 0 };
        let needed = 1 + table.as_ref().map_or(0, writers);
        let room = self.rng.pick(&[needed, needed, needed - 1, needed + 3, 0]);
        let mut lent = Lent::of(bytes);
        let mut list = Lent::filled(room * std::mem::size_of::<Value>(), FILLER);
        let mut right: Vec<LiveRecord> = (0..room).map(|at| record(&mut list, at)).collect();
        let told = placed(|place| unsafe { press_live(lent.pointer(), bytes.len(), signal as usize, list.pointer(), room, place) });
        let second = table.and_then(|table| plan::live_list(&table, signal, &mut right));
        self.kept(&mut lent, bytes);
        let left: Vec<LiveRecord> = (0..room).map(|at| record(&mut list, at)).collect();
        assert_eq!(left, right, "call {}: the live list", self.calls);
        let filled = *second.as_ref().unwrap_or(&0) * std::mem::size_of::<Value>();
        assert!(list.bytes()[filled..].iter().all(|byte| *byte == FILLER), "call {}: records beyond the list", self.calls);
        assert!(list.is_guarded(), "call {}: the guard bytes of the list", self.calls);
        self.same("live", told, second);
    }

    fn load(&mut self, bytes: &[u8], schedule: &[u8]) -> bool {
        let (mut table, mut lent) = (Lent::of(bytes), Lent::of(schedule));
        let machine = self.machine.pointer();
        let told = placed(|place| unsafe { c_load(machine, table.pointer(), bytes.len(), lent.pointer(), schedule.len(), place) });
        self.kept(&mut table, bytes);
        self.kept(&mut lent, schedule);
        let right = read_table(bytes).and_then(|table| check::check(&table, schedule).map(|parts| (table, parts)));
        if let Ok((table, parts)) = &right {
            self.model.load(table, parts);
            let second = self.second.get_or_insert_default();
            assert!(second.load(table, schedule).is_ok());
        }
        self.same("load", told, right.map(|_| 0));
        told.0 == 0
    }

    /// The second program has its say where the state comes from a loading.
    fn agrees<T: PartialEq + std::fmt::Debug>(
        &mut self,
        right: &Result<T, Refusal>,
        call: impl FnOnce(&mut machine::Machine) -> Result<T, Refusal>,
    ) {
        if let Some(second) = &mut self.second {
            assert_eq!(*right, call(second), "call {}: the words of press.h and the second program", self.calls);
        }
    }

    fn step(&mut self) {
        let number = unsafe { c_step(self.machine.pointer()) };
        let right = self.model.step();
        self.agrees(&right, |second| second.step());
        self.same("step", (number, 0), right.map(|_| 0));
    }

    fn read(&mut self, task: u64, signal: u64) {
        let mut word = Lent::filled(4, FILLER);
        let number = unsafe { c_read(self.machine.pointer(), task as usize, signal as usize, word.pointer()) };
        let right = self.model.read(task, signal);
        assert_eq!(word.get::<u32>(), *right.as_ref().unwrap_or(&0), "call {}: the word read", self.calls);
        self.agrees(&right, |second| second.read(task, signal));
        self.same("read", (number, 0), right.map(|_| 0));
    }

    fn write(&mut self, task: u64, signal: u64) {
        let word = random::word(&mut self.rng);
        let number = unsafe { c_write(self.machine.pointer(), task as usize, signal as usize, word) };
        let right = self.model.write(task, signal, word);
        self.agrees(&right, |second| second.write(task, signal, word));
        self.same("write", (number, 0), right.map(|_| 0));
    }

    fn opens(&mut self, task: u64) {
        let mut instance = Lent::filled(2, FILLER);
        let machine = self.machine.pointer();
        let number = unsafe { c_open_instance(machine, task as usize, instance.pointer()) };
        let right = self.model.open_instance(task);
        assert_eq!(instance.get::<u16>(), *right.as_ref().unwrap_or(&0), "call {}: the open instance", self.calls);
        assert_eq!(unsafe { c_is_open(machine, task as usize) }, right.is_ok() as i32, "call {}: whether it is open", self.calls);
        self.agrees(&right, |second| second.open(task).map(|instance| instance as u16));
        self.same("open", (number, 0), right.map(|_| 0));
    }

    /// A read or write, mostly of an access that the table has, or whether a task is open.
    fn access(&mut self, table: &Table) {
        let (task, signal, access) = if table.accesses.is_empty() || self.rng.one_in(12) {
            (self.rng.pick(&FAR), self.rng.pick(&FAR), self.rng.pick(&[Access::Read, Access::Write]))
        } else {
            let (task, signal, access) = self.rng.pick(&table.accesses);
            (task as u64, signal as u64, access)
        };
        match access {
            _ if self.rng.one_in(6) => self.opens(task),
            Access::Read => self.read(task, signal),
            Access::Write => self.write(task, signal),
        }
    }

    /// Calls on the machine, over three hyper-periods where those are short.
    fn runs(&mut self, table: &Table) {
        for _ in 0..(3 * table.hyper).min(400) {
            self.step();
            for _ in 0..self.rng.below(4) {
                self.access(table);
            }
        }
    }

    fn round(&mut self) {
        let bytes = self.table();
        self.tables(&bytes);
        let Ok((table, plan)) = read_table(&bytes).and_then(|table| plan::plan_schedule(&table).map(|plan| (table, plan))) else {
            // The table or its plan is refused, and the machine runs on.
            self.plans(&bytes, 40);
            self.lives(&bytes);
            self.checks(&bytes, b"EN");
            self.load(&bytes, b"EN");
            return (0..4).for_each(|_| self.access(&Table::default()));
        };
        self.plans(&bytes, schedule_bytes(&plan).len());
        (0..3).for_each(|_| self.lives(&bytes));
        for _ in 0..4 {
            let schedule = vary::variant(&mut self.rng, &table, &plan);
            self.checks(&bytes, &schedule);
        }
        let schedule = self.schedule(&table, &plan);
        if self.load(&bytes, &schedule) {
            self.runs(&table);
        }
    }

    /// Mostly a small table; sometimes a large one, or one whose plan needs too many elements.
    fn table(&mut self) -> Vec<u8> {
        let limits = match self.rng.below(60) {
            0 => return draft::crowded(16, 9).bytes(),
            1..=3 => random::ANY,
            4..=20 => random::MEDIUM,
            _ => random::SMALL,
        };
        random::table_bytes(&mut self.rng, limits)
    }

    fn schedule(&mut self, table: &Table, plan: &[SignalSchedule]) -> Vec<u8> {
        match self.rng.below(5) {
            0 => vary::variant(&mut self.rng, table, plan),
            1 => schedule_bytes(plan),
            _ => schedule_bytes(&vary::passing(&mut self.rng, table).unwrap_or(plan.to_vec())),
        }
    }

    /// The machine gets a state that no loading leads to.
    fn put(&mut self, state: &State) {
        self.machine.bytes().copy_from_slice(state.bytes());
        self.model = state.clone();
        self.second = None;
    }

    /// A call with any task and signal.
    fn any(&mut self) {
        let (task, signal) = (self.rng.below(17) as u64, self.rng.below(33) as u64);
        match self.rng.below(6) {
            0 => self.read(task, signal),
            1 => self.write(task, signal),
            2 => self.opens(task),
            _ => self.step(),
        }
    }

    /// A fit state run for a while, then with numbers changed one by one, then unfit in one way.
    fn states(&mut self) {
        let fit = states::fit(&mut self.rng);
        assert_eq!(fit.faults(), [], "a state that was to be fit");
        self.put(&fit);
        (0..20).for_each(|_| self.any());
        let mut changed = self.model.clone();
        for _ in 0..10 {
            let before = changed.clone();
            states::nudge(&mut self.rng, &mut changed);
            self.put(&changed);
            (0..2).for_each(|_| self.any());
            changed = if self.model.faults().is_empty() { self.model.clone() } else { before };
        }
        self.spoiled(changed);
    }

    /// Each way in its turn.
    fn spoiled(&mut self, mut state: State) {
        let way = self.unfit.iter().sum::<usize>() % WAYS.len();
        let (name, fault, spoil) = WAYS[way];
        spoil(&mut self.rng, &mut state);
        // no tick is below a hyper-period of 0
        let faults = if state.hyper == 0 { vec![fault, Fault::Tick] } else { vec![fault] };
        assert_eq!(state.faults(), faults, "a state that was to have: {name}");
        self.put(&state);
        let refused = self.answers[25];
        self.step();
        (0..4).for_each(|_| self.any());
        assert_eq!(self.answers[25], refused + 5, "a state that is not fit: {name}");
        self.unfit[way] += 1;
    }
}

/// The record at an index of a lent list.
fn record(list: &mut Lent, at: usize) -> LiveRecord {
    let value: Value = unsafe { list.pointer::<Value>().add(at).read() };
    LiveRecord { task: value.task, instance: value.instance, from: value.from, until: value.until, element: value.element }
}

/// Each number has words of its own, and no other number has any.
fn texts() {
    let text = |number| unsafe { CStr::from_ptr(c_text(number)) }.to_str().expect("plain letters");
    let other = text(26);
    let mut seen: Vec<&str> = (0..26).map(text).filter(|words| !words.is_empty() && *words != other).collect();
    seen.sort();
    seen.dedup();
    assert_eq!((seen.len(), text(255)), (26, other), "the words for the numbers");
}

/// What `main` of firmware/calls.c calls: so a C compiler links the whole, with its sanitizers where it is told to.
#[no_mangle]
pub extern "C" fn random_calls() {
    assert_eq!(state::BYTES, 11_656);
    let words: Vec<String> = std::env::args().skip(1).collect();
    let usage = "random SEED CALLS [bare]";
    let [seed, calls] = [0, 1].map(|at| words.get(at).and_then(|word| word.parse().ok()).expect(usage));
    match words[2..] {
        [] => {}
        [ref word] if word == "bare" => lent::without_guards(),
        _ => panic!("{usage}"),
    }
    texts();
    let mut both = Both::new(seed);
    // before the first loading
    (0..20).for_each(|_| both.any());
    while (both.calls as u64) < calls {
        both.round();
        both.states();
    }
    let answers: Vec<String> = (0..26).filter(|n| both.answers[*n] > 0).map(|n| format!("{}: {}", n, both.answers[n])).collect();
    println!("{} calls, all alike; by number {}", both.calls, answers.join(", "));
    let unfit: Vec<String> = WAYS.iter().zip(both.unfit).map(|((name, ..), times)| format!("{name}: {times}")).collect();
    println!("states that are not fit: {}", unfit.join("; "));
}
