//! Schedules with every fault, alone and two at once.

use super::{changed, many_signals, sample};
use crate::check::check;
use crate::draft::*;
use crate::plan::plan_schedule;
use crate::random::{self, Limits, SMALL};
use crate::rng::Rng;
use crate::schedule::{schedule_bytes, SignalSchedule};
use crate::script::{planned, Script};
use crate::table::{read_table, Table};
use crate::vary::{move_to, move_value, passing, spread};

pub fn checks(script: &mut Script) {
    script.line("# checks");
    script.line("check -");
    script.line("check 454E");
    for draft in [
        figure_a(),
        figure_c(),
        figure_d(),
        figure_e(),
        figure_g(),
        sample(),
    ] {
        every_fault(script, &draft);
    }
    empty_schedules(script);
    sums_of_counts(script);
    long_schedules(script);
    let mut rng = Rng::new(3);
    let rich = Limits {
        hyper: 60,
        tasks: 6,
        signals: 3,
        uses: 24,
    };
    for round in 0..260 {
        let bytes = if round % 13 == 5 {
            random::spoiled(&mut rng, round / 13 % 13, SMALL)
        } else {
            random::draft(&mut rng, rich).bytes()
        };
        script.checks(&mut rng, &bytes, 12);
    }
    clashing_values(script, &mut rng, rich);
    refused_tables(script, &mut Rng::new(8));
    late_instances(script, &mut Rng::new(9));
}

/// A refused table comes before any schedule, whatever that holds: each of 1 to 11 a dozen times.
fn refused_tables(script: &mut Script, rng: &mut Rng) {
    let plan = planned(&figure_a().bytes()).expect("planned");
    let schedules = [schedule_bytes(&plan), b"EN".to_vec(), Vec::new()];
    for number in 1..=11 {
        for round in 0..12 {
            let bytes = refused_with(rng, number, round);
            script.bytes("table", &bytes);
            script.bytes("check", &schedules[round % schedules.len()]);
        }
    }
}

/// A table refused with the number; every other 8 has an H above 2^32.
fn refused_with(rng: &mut Rng, number: usize, round: usize) -> Vec<u8> {
    if number == 8 && round % 2 == 0 {
        return random::vast(rng).bytes();
    }
    loop {
        let bytes = random::spoiled(rng, number, SMALL);
        if read_table(&bytes).is_err_and(|refusal| refusal.number as usize == number) {
            return bytes;
        }
    }
}

/// Instances of 256 and more: what passes, and what only their high byte or their element spoils.
fn late_instances(script: &mut Script, rng: &mut Rng) {
    for _ in 0..7 {
        let draft = random::many_instances(rng, 300);
        let table = read_table(&draft.bytes()).expect("accepted");
        let plan = schedule_bytes(&plan_schedule(&table).expect("planned"));
        let passing = passing(rng, &table).expect("a plan exists");
        let other = schedule_bytes(&passing);
        script.bytes("table", &draft.bytes());
        script.bytes("check", &plan);
        script.bytes("check", &other);
        let high = late_bytes(&other);
        let place = rng.pick(&high);
        changed(script, "check", &other, place, 0);
        changed(script, "check", &other, place + 2, other[place + 2] ^ 1);
        script.bytes("check", &late_clash(rng, &table, passing));
    }
}

/// A value of signal 0 from instance 256 on in the element of the one before, which lives until it is published.
fn late_clash(rng: &mut Rng, table: &Table, mut schedule: Vec<SignalSchedule>) -> Vec<u8> {
    let part = &mut schedule[0];
    let place = 256 + rng.below(part.writers.len() - 256);
    let element = part.writers[place - 1].1;
    move_to(table, 0, part, place, element);
    schedule_bytes(&schedule)
}

/// The places of the high bytes of instances from 256 on: in a WI or RI, after mark, signal and task.
fn late_bytes(schedule: &[u8]) -> Vec<usize> {
    let mut high = Vec::new();
    let mut start = 0;
    while schedule.len() - start > 2 {
        let size = if schedule[start..].starts_with(b"BF") {
            4
        } else {
            7
        };
        if size == 7 && schedule[start + 4] != 0 {
            high.push(start + 4);
        }
        start += size;
    }
    high
}

/// A schedule cut at each byte, each byte changed, each count and element at its bounds, and two faults at once.
fn every_fault(script: &mut Script, draft: &Draft) {
    script.bytes("table", &draft.bytes());
    let plan = schedule_bytes(
        &plan_schedule(&read_table(&draft.bytes()).expect("accepted")).expect("planned"),
    );
    for length in 0..=plan.len() {
        script.bytes("check", &plan[..length]);
    }
    for tail in [b"\x00".to_vec(), b"EN".to_vec(), plan.clone()] {
        script.bytes("check", &[plan.clone(), tail].concat());
    }
    for place in 0..plan.len() {
        for value in [0, 1, 2, 3, 31, 32, 33, 255, plan[place] ^ 64] {
            changed(script, "check", &plan, place, value);
        }
    }
    two_faults(script, &plan);
}

fn two_faults(script: &mut Script, plan: &[u8]) {
    let mut rng = Rng::new(plan.len() as u64);
    for _ in 0..60 {
        let mut bytes = plan.to_vec();
        for _ in 0..2 {
            let place = rng.below(bytes.len());
            bytes[place] = rng.pick(&[0, 1, 2, 3, 33, 255]);
        }
        match rng.below(4) {
            0 => bytes.truncate(rng.below(bytes.len())),
            1 => bytes.push(0),
            _ => {}
        }
        script.bytes("check", &bytes);
    }
}

fn empty_schedules(script: &mut Script) {
    script.bytes("table", &Draft::default().task(0, 1, 1).bytes());
    for schedule in [
        &b""[..],
        b"E",
        b"EN",
        b"NE",
        b"EX",
        b"XN",
        b"EN\x00",
        b"ENEN",
        b"BF\x00\x01EN",
    ] {
        script.bytes("check", schedule);
    }
}

/// 20: many signals whose spare counts sum to 256 and past it, also with faults that come before and after.
fn sums_of_counts(script: &mut Script) {
    for signals in [8_usize, 9, 10, 12, 20, 32] {
        let draft = many_signals(signals);
        let table = read_table(&draft.bytes()).expect("accepted");
        let plan = plan_schedule(&table).expect("planned");
        script.bytes("table", &draft.bytes());
        for sum in [255, 256, 257, 258, 272, 300, 1_024] {
            let mut schedule = plan.clone();
            spread(&mut schedule, sum);
            script.bytes("check", &schedule_bytes(&schedule));
            for fault in 0..5 {
                script.bytes("check", &with_fault(schedule.clone(), fault));
            }
        }
    }
}

pub fn with_fault(mut schedule: Vec<SignalSchedule>, fault: usize) -> Vec<u8> {
    let last = schedule.len() - 1;
    match fault {
        0 => schedule[1].readers[1].1 = 0,
        1 => schedule[1].writers[0].1 = 0,
        2 => schedule[1].readers[0].1 = 32,
        3 => schedule[last].count = 33,
        _ => return [schedule_bytes(&schedule), b"\x00".to_vec()].concat(),
    }
    schedule_bytes(&schedule)
}

fn long_schedules(script: &mut Script) {
    script.bytes("table", &longest().bytes());
    let plan = schedule_bytes(
        &plan_schedule(&read_table(&longest().bytes()).expect("accepted")).expect("planned"),
    );
    script.bytes("check", &plan);
    script.bytes("check", &plan[..plan.len() - 1]);
    changed(script, "check", &plan, 28_799, 1);
    let draft = crowded(16, 8);
    let table = read_table(&draft.bytes()).expect("accepted");
    script.bytes("table", &draft.bytes());
    let mut schedule = plan_schedule(&table).expect("planned");
    script.bytes("check", &schedule_bytes(&schedule));
    schedule[7].writers[154].1 ^= 1;
    script.bytes("check", &schedule_bytes(&schedule));
}

/// Values moved with their readers, so that 22 shows alone and its place is told from others.
fn clashing_values(script: &mut Script, rng: &mut Rng, limits: Limits) {
    let mut found = 0;
    while found < 300 {
        let draft = random::draft(rng, limits);
        let table = read_table(&draft.bytes()).expect("a random draft is accepted");
        let Some(schedule) = passing(rng, &table) else {
            continue;
        };
        let clashing = moved(rng, &table, schedule);
        if !clashing.is_empty() {
            script.bytes("table", &draft.bytes());
        }
        for bytes in clashing {
            script.bytes("check", &bytes);
            found += 1;
        }
    }
}

fn moved(rng: &mut Rng, table: &Table, schedule: Vec<SignalSchedule>) -> Vec<Vec<u8>> {
    let mut clashing = Vec::new();
    for _ in 0..6 {
        let mut other = schedule.clone();
        for _ in 0..1 + rng.below(3) {
            let signal = rng.below(other.len());
            if let Some(part) = other.get_mut(signal) {
                move_value(rng, table, signal, part);
            }
        }
        let bytes = schedule_bytes(&other);
        if check(table, &bytes).is_err() {
            clashing.push(bytes);
        }
    }
    clashing
}
