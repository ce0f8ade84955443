//! The figures of document 01, random tables held against second views of the same words, and what the scripts must hold.

mod figures;
mod refusals;
mod scripts;

use crate::check::check;
use crate::hex::to_hex;
use crate::judge::Judge;
use crate::machine::Machine;
use crate::model::Model;
use crate::plan::{live_list, plan_schedule, LiveRecord};
use crate::random::{self, Limits};
use crate::rng::Rng;
use crate::schedule::{schedule_bytes, SignalSchedule};
use crate::table::{read_table, refuse, Access, Instance, Refusal, Table};
use crate::vary::{passing, variant};

const TABLES: u64 = 6_000;

#[derive(Default)]
pub struct Tally {
    passed: u64,
    failed: u64,
}

impl Tally {
    pub fn expect(&mut self, holds: bool, what: impl Fn() -> String) {
        if holds {
            self.passed += 1;
        } else {
            self.failed += 1;
            println!("failed: {}", what());
        }
    }

    pub fn same<T: PartialEq + std::fmt::Debug>(&mut self, what: &str, got: T, want: T) {
        self.expect(got == want, || {
            format!("{}: got {:?}, want {:?}", what, got, want)
        });
    }
}

/// Whether everything held.
pub fn selftest() -> bool {
    let mut tally = Tally::default();
    figures::figures(&mut tally);
    refusals::refusals(&mut tally);
    scripts::scripts(&mut tally);
    for seed in 0..TABLES {
        random_table(&mut tally, seed);
    }
    crate::tally::requirements(&mut tally);
    println!("{} passed, {} failed", tally.passed, tally.failed);
    tally.failed == 0
}

fn refusal<T>(result: Result<T, Refusal>) -> (u32, usize) {
    result.map_or_else(|refusal| (refusal.number, refusal.place), |_| (0, 0))
}

fn limits(rng: &mut Rng) -> Limits {
    match rng.below(20) {
        0 => Limits {
            hyper: 420,
            tasks: 16,
            signals: 32,
            uses: 600,
        },
        1..=5 => Limits {
            hyper: 120,
            tasks: 16,
            signals: 6,
            uses: 150,
        },
        _ => Limits {
            hyper: 60,
            tasks: 8,
            signals: 4,
            uses: 60,
        },
    }
}

fn random_table(tally: &mut Tally, seed: u64) {
    let mut rng = Rng::new(seed);
    let limits = limits(&mut rng);
    let bytes = random::draft(&mut rng, limits).bytes();
    let Ok(table) = read_table(&bytes) else {
        return tally.expect(false, || format!("seed {} makes a refused table", seed));
    };
    let Ok(plan) = plan_schedule(&table) else {
        return;
    };
    let judge = Judge::new(&table);
    let writers: Vec<_> = plan.iter().map(|part| part.writers.clone()).collect();
    tally.expect(judge.planned(&table) == writers, || {
        format!("seed {}: the plan differs", seed)
    });
    plan_is_least(tally, seed, &table, &plan, &judge);
    live_lists(tally, seed, &table, &plan);
    for _ in 0..12 {
        let bytes = variant(&mut rng, &table, &plan);
        judged(tally, seed, &table, &judge, &bytes);
    }
    let whole = schedule_bytes(&plan);
    for _ in 0..12 {
        let bytes = random::damaged(&mut rng, whole.clone());
        judged(tally, seed, &table, &judge, &bytes);
    }
    reads_agree(tally, seed, &mut rng, &table, &whole);
    let other = passing(&mut rng, &table).expect("a plan exists");
    reads_agree(tally, seed, &mut rng, &table, &schedule_bytes(&other));
}

fn plan_is_least(
    tally: &mut Tally,
    seed: u64,
    table: &Table,
    plan: &[SignalSchedule],
    judge: &Judge,
) {
    let bytes = schedule_bytes(plan);
    tally.expect(check(table, &bytes).is_ok(), || {
        format!("seed {}: the plan does not pass", seed)
    });
    tally.expect(judge.faults(&bytes).is_empty(), || {
        format!("seed {}: the plan is judged wrong", seed)
    });
    let counts: Vec<usize> = plan.iter().map(|part| part.count as usize).collect();
    tally.expect(counts == judge.most_live(), || {
        format!("seed {}: counts are not the most live", seed)
    });
}

/// The live list names the plan's elements, and one record too few changes nothing.
fn live_lists(tally: &mut Tally, seed: u64, table: &Table, plan: &[SignalSchedule]) {
    let blank = LiveRecord {
        task: 1,
        instance: 2,
        from: 3,
        until: 4,
        element: 5,
    };
    for (signal, part) in plan.iter().enumerate() {
        let needed = part.writers.len() + 1;
        let mut list = vec![blank; needed + 1];
        let filled = live_list(table, signal as u64, &mut list);
        let mut elements: Vec<(u8, u16, u8)> = list[1..needed]
            .iter()
            .map(|r| (r.task, r.instance, r.element))
            .collect();
        elements.sort();
        let planned = part
            .writers
            .iter()
            .map(|(wi, element)| (wi.task as u8, wi.number as u16, *element));
        let holds =
            filled == Ok(needed) && elements.into_iter().eq(planned) && list[needed] == blank;
        tally.expect(holds, || {
            format!("seed {}: live list of signal {}", seed, signal)
        });
        let mut short = vec![blank; needed - 1];
        let refused = refusal(live_list(table, signal as u64, &mut short)) == (14, needed);
        tally.expect(refused && short.iter().all(|r| *r == blank), || {
            format!("seed {}: short list", seed)
        });
    }
}

/// The answer is 0 exactly without a fault, else one of the faults that are there.
fn judged(tally: &mut Tally, seed: u64, table: &Table, judge: &Judge, bytes: &[u8]) {
    let faults = judge.faults(bytes);
    let (number, place) = refusal(check(table, bytes));
    let holds = match number {
        0 => faults.is_empty(),
        // What stands before the place is right, so that a schedule ending there only ends early.
        15..=18 => {
            faults.contains(&number) && refusal(check(table, &bytes[..place])) == (15, place)
        }
        19 => bytes.len() > judge.size() && place == judge.size(),
        _ => faults.contains(&number) && faults.iter().all(|fault| *fault >= number),
    };
    tally.expect(holds, || {
        format!(
            "seed {}: {} {} judged {:?}: {}",
            seed,
            number,
            place,
            faults,
            to_hex(bytes)
        )
    });
}

/// Machine and model over several hyper-periods with accepted and refused calls.
fn reads_agree(tally: &mut Tally, seed: u64, rng: &mut Rng, table: &Table, schedule: &[u8]) {
    let mut machine = Machine::default();
    let before = refusal(machine.step()) == (25, 0)
        && refusal(machine.read(0, 0)) == (25, 0)
        && refusal(machine.open(0)) == (25, 0);
    let loaded = machine.load(table, schedule).is_ok();
    tally.expect(before && loaded, || format!("seed {}: loading", seed));
    let mut model = Model::new(table);
    let steps = (table.hyper * 4 + 3).min(300);
    for tick in 0..steps {
        let agree = calls_agree(rng, table, &mut machine, &mut model);
        tally.expect(agree, || {
            format!("seed {}: machine and model differ at tick {}", seed, tick)
        });
        let task = rng.below(18);
        let open = open_by_windows(table, tick % table.hyper, task);
        tally.expect(machine.open(task as u64) == open, || {
            format!("seed {}: task {} at tick {}", seed, task, tick)
        });
        if rng.one_in(40) {
            let refused = machine
                .load(table, &schedule[..schedule.len() - 1])
                .is_err();
            tally.expect(refused, || format!("seed {}: a cut schedule loads", seed));
        }
        tally.expect(machine.step().is_ok(), || format!("seed {}: step", seed));
        model.step();
    }
}

/// The instance that has opened and not closed, instance by instance.
fn open_by_windows(table: &Table, tick: u32, task: usize) -> Result<u32, Refusal> {
    if task >= table.tasks.len() {
        return refuse(23, 0);
    }
    let inside = |number: &u32| {
        let instance = Instance {
            task,
            number: *number,
        };
        table.opening(instance) <= tick && tick < table.closing(instance)
    };
    (0..table.instances(task))
        .find(inside)
        .map_or(refuse(24, 0), Ok)
}

fn calls_agree(rng: &mut Rng, table: &Table, machine: &mut Machine, model: &mut Model) -> bool {
    let mut agree = true;
    for (task, signal, access) in &table.accesses {
        let (task, signal) = (*task as u64, *signal as u64);
        if *access == Access::Read {
            agree &= machine.read(task, signal) == model.read(task, signal);
        } else if rng.one_in(3) {
            let word = rng.next() as u32;
            agree &= machine.write(task, signal, word) == model.write(task, signal, word);
        }
    }
    let (task, signal) = (rng.below(18) as u64, rng.below(34) as u64);
    agree &= machine.read(task, signal) == model.read(task, signal);
    agree && machine.write(task, signal, 1) == model.write(task, signal, 1)
}
