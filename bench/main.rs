//! The proved library beside plain Rust: `bench same N` compares their answers on N tables, `bench rows` makes the calls that callgrind counts, `bench stack`
//! says how deep each call reaches.

mod ours;
mod plain;
mod same;
mod stack;
mod tables;

use std::hint::black_box;
use tables::table;

/// The longest schedule.
const ROOM: usize = 28_802;

/// Limits on instructions; a step, a read and a write are held to the plain code.
const TABLE_BUDGET: &str = "400000";
const BUDGET: &str = "1200000";
const GOAL: &str = "1.5x";

/// The counting starts and ends where these are called: `bench/run` names them to callgrind.
#[no_mangle]
#[inline(never)]
extern "C" fn count_starts() {
    black_box("starts");
}

#[no_mangle]
#[inline(never)]
extern "C" fn count_ends() {
    black_box("ends");
}

fn counted<T>(times: usize, mut call: impl FnMut() -> T) {
    count_starts();
    for _ in 0..times {
        black_box(call());
    }
    count_ends();
}

/// One row: the call and its table, the budget, and how many calls were counted, of the proved code and then of the plain.
fn row<A, B>(
    call: &str,
    name: &str,
    budget: &str,
    times: usize,
    ours: impl FnMut() -> A,
    plain: impl FnMut() -> B,
) {
    println!("{call} {name} {budget} {times}");
    counted(times, ours);
    counted(times, plain);
}

fn planned(table: &[u8]) -> Vec<u8> {
    let mut schedule = vec![0; ROOM];
    let (number, length) = ours::plan(table, &mut schedule);
    assert_eq!(number, 0, "the table is planned");
    schedule.truncate(length);
    schedule
}

fn table_rows() {
    for name in [
        "writer", "all", "wide", "half", "quarter", "writes", "clash",
    ] {
        let bytes = table(name);
        assert_eq!(
            ours::table(&bytes),
            if name == "clash" { (11, 31) } else { (0, 0) }
        );
        row(
            "table",
            name,
            TABLE_BUDGET,
            10,
            || ours::table(&bytes),
            || plain::Table::read(&bytes).is_ok(),
        );
    }
}

fn plan_rows() {
    for name in ["writer", "all", "wide", "half", "quarter"] {
        let bytes = table(name);
        let mut out = planned(&bytes);
        let mut other = out.clone();
        row(
            "plan",
            name,
            BUDGET,
            10,
            || ours::plan(&bytes, &mut out),
            || plain::plan(&bytes, &mut other).is_ok(),
        );
        assert!(out == other);
    }
}

/// A record that no call writes.
pub const UNTOUCHED: plain::LiveValue = plain::LiveValue {
    task: 0xAA,
    instance: 0xAAAA,
    from: 0xAAAA_AAAA,
    until: 0xAAAA_AAAA,
    element: 0xAA,
};

/// The list of the first signal. On `all` every instance writes it, so that no list is longer.
fn live_rows() {
    for (name, instances) in [("writer", 508), ("all", 512), ("wide", 7)] {
        let bytes = table(name);
        let mut list = [UNTOUCHED; 513];
        let mut other = [UNTOUCHED; 513];
        assert_eq!(ours::live(&bytes, 0, &mut list), (0, 1 + instances));
        row(
            "live",
            name,
            BUDGET,
            10,
            || ours::live(&bytes, 0, &mut list),
            || plain::live(&bytes, 0, &mut other).is_ok(),
        );
        assert!(list == other);
    }
}

fn check_rows() {
    for name in ["writer", "all", "wide", "half", "quarter"] {
        let bytes = table(name);
        let schedule = planned(&bytes);
        assert_eq!(ours::check(&bytes, &schedule), (0, 0));
        row(
            "check",
            name,
            BUDGET,
            10,
            || ours::check(&bytes, &schedule),
            || plain::check(&bytes, &schedule).is_ok(),
        );
    }
}

/// The plan with one element changed, as late as possible, so that the answer is this number.
fn broken(bytes: &[u8], mark: &[u8; 2], number: u8) -> Vec<u8> {
    let plan = planned(bytes);
    let records = (0..plan.len() - 7)
        .rev()
        .filter(|&at| plan[at..].starts_with(mark));
    let changes = records.flat_map(|at| (0..32).map(move |element| (at, element)));
    let changed = |(at, element)| {
        let mut schedule = plan.clone();
        schedule[at + 6] = element;
        schedule
    };
    changes
        .map(changed)
        .find(|schedule| ours::check(bytes, schedule).0 == number)
        .expect("such a record")
}

/// A refusal pays for the search of its place; no budget holds for it.
fn refusal_rows() {
    for (name, mark, number) in [
        ("all", b"RI", 21),
        ("all", b"WI", 22),
        ("writer", b"WI", 22),
    ] {
        let bytes = table(name);
        let schedule = broken(&bytes, mark, number);
        assert_eq!(ours::check(&bytes, &schedule).0, number);
        row(
            &format!("check:{number}"),
            name,
            "-",
            1,
            || ours::check(&bytes, &schedule),
            || plain::check(&bytes, &schedule).is_ok(),
        );
    }
}

/// Two machines with the table and its plan.
fn loaded(name: &str) -> (plain::Machine, plain::Machine) {
    let bytes = table(name);
    let schedule = planned(&bytes);
    let mut one = plain::Machine::new();
    let mut other = plain::Machine::new();
    assert_eq!(ours::load(&mut one, &bytes, &schedule), (0, 0));
    assert!(other.load(&bytes, &schedule).is_ok());
    (one, other)
}

/// The first task and signal for which a call is done.
fn permitted(done: impl Fn(usize, usize) -> bool) -> (usize, usize) {
    (0..16 * 32)
        .map(|cell| (cell / 32, cell % 32))
        .find(|&(task, signal)| done(task, signal))
        .expect("some access")
}

fn machine_rows() {
    let names = ["writer", "all", "wide", "burst"];
    for name in names {
        let bytes = table(name);
        let schedule = planned(&bytes);
        let (mut one, mut other) = loaded(name);
        row(
            "load",
            name,
            BUDGET,
            10,
            || ours::load(&mut one, &bytes, &schedule),
            || other.load(&bytes, &schedule).is_ok(),
        );
    }
    for name in names {
        let (mut one, mut other) = loaded(name);
        let (hyper, busiest) = tables::busiest(&table(name));
        // every step of a hyper-period, then the busiest
        row(
            "step",
            name,
            GOAL,
            hyper,
            || ours::step(&mut one),
            || other.step().is_ok(),
        );
        for _ in 1..busiest {
            assert!(other.step().is_ok());
        }
        one = other.clone();
        row(
            "step:most",
            name,
            GOAL,
            1,
            || ours::step(&mut one),
            || other.step().is_ok(),
        );
        assert!(one == other);
    }
    for name in names {
        let (_, mut other) = loaded(name);
        for _ in 0..20 {
            assert!(other.step().is_ok());
        }
        let mut one = other.clone();
        let (task, signal) = permitted(|task, signal| other.read(task, signal).is_ok());
        row(
            "read",
            name,
            GOAL,
            10,
            || ours::read(&one, task, signal),
            || other.read(task, signal).is_ok(),
        );
        let (task, signal) = permitted(|task, signal| other.clone().write(task, signal, 1).is_ok());
        row(
            "write",
            name,
            GOAL,
            10,
            || ours::write(&mut one, task, signal, 1),
            || other.write(task, signal, 1).is_ok(),
        );
        let opens = |task: usize| other.open_instance(task).is_ok();
        let task = (0..16).find(|&task| opens(task)).expect("an open task");
        row(
            "open",
            name,
            GOAL,
            10,
            || ours::open_instance(&one, task),
            || other.open_instance(task).is_ok(),
        );
        assert!(one == other);
    }
}

fn main() {
    let words: Vec<String> = std::env::args().skip(1).collect();
    match words.iter().map(String::as_str).collect::<Vec<_>>()[..] {
        ["same", tables] => {
            let seen = same::compare(tables.parse().expect("a number"));
            println!("{tables} tables; answers by number: {seen:?}");
        }
        ["rows"] => {
            table_rows();
            plan_rows();
            live_rows();
            check_rows();
            machine_rows();
            refusal_rows();
        }
        ["stack"] => stack::rows(),
        _ => panic!("bench same N | rows | stack"),
    }
}
