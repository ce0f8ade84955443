//! Machines over many hyper-periods.

use super::checks::with_fault;
use super::{many_signals, sample};
use crate::draft::*;
use crate::plan::plan_schedule;
use crate::random::{self, Limits, SMALL};
use crate::rng::Rng;
use crate::schedule::schedule_bytes;
use crate::script::Script;
use crate::table::read_table;
use crate::vary::{passing, spread};

pub fn machines(script: &mut Script) {
    script.line("# machines");
    for line in [
        "step",
        "step 0",
        "step 5",
        "read 0 0",
        "write 0 0 1",
        "read 18446744073709551615 0",
        "load -",
    ] {
        script.line(line);
    }
    figure_b(script);
    hyper_periods(script);
    let mut rng = Rng::new(5);
    let small = Limits {
        hyper: 30,
        tasks: 6,
        signals: 3,
        uses: 40,
    };
    for round in 0..1_150 {
        let limits = match round % 11 {
            0 => Limits {
                hyper: 10_000,
                tasks: 8,
                signals: 4,
                uses: 120,
            },
            1..=3 => SMALL,
            _ => small,
        };
        let bytes = if round % 15 == 7 {
            random::spoiled(&mut rng, round / 15 % 13, SMALL)
        } else {
            random::draft(&mut rng, limits).bytes()
        };
        let calls = if read_table(&bytes).is_ok_and(|table| table.accesses.is_empty()) {
            4
        } else if round % 4 == 0 {
            90
        } else {
            30
        };
        script.machine(&mut rng, &bytes, calls);
    }
    overfull_loads(script);
    let mut rng = Rng::new(10);
    for _ in 0..14 {
        let draft = random::many_instances(&mut rng, 300);
        script.late_calls(&mut rng, &draft);
    }
}

/// Loadings refused because the counts sum above 256, while the machine runs on with what it holds.
fn overfull_loads(script: &mut Script) {
    for signals in [9_usize, 10, 12, 20, 32] {
        let draft = many_signals(signals);
        let table = read_table(&draft.bytes()).expect("accepted");
        let mut fullest = plan_schedule(&table).expect("planned");
        spread(&mut fullest, 256);
        script.bytes("table", &draft.bytes());
        script.bytes("load", &schedule_bytes(&fullest));
        script.line("write 0 1 20");
        script.line("step 6");
        for sum in [257, 258, 272, 288, 1_024] {
            let mut schedule = fullest.clone();
            spread(&mut schedule, sum);
            script.bytes("load", &schedule_bytes(&schedule));
            script.line("read 1 1");
            // 20 comes before 21 and 22.
            for fault in 0..2 {
                script.bytes("load", &with_fault(schedule.clone(), fault));
            }
            script.line("read 1 1");
        }
        script.bytes("load", &schedule_bytes(&fullest));
        script.line("read 1 1");
    }
}

/// A running for three hyper-periods, every access at every tick.
fn figure_b(script: &mut Script) {
    for (draft, other) in [
        (figure_a(), None),
        (figure_d(), None),
        (figure_e(), None),
        (figure_g(), None),
        (sample(), Some(6)),
    ] {
        let table = read_table(&draft.bytes()).expect("accepted");
        let mut schedule = plan_schedule(&table).expect("planned");
        if let Some(seed) = other {
            schedule = passing(&mut Rng::new(seed), &table).unwrap_or(schedule);
        }
        script.bytes("table", &draft.bytes());
        script.bytes("load", &schedule_bytes(&schedule));
        for tick in 0..table.hyper * 3 {
            for (task, signal, write) in &draft.accesses {
                if !write {
                    script.line(&format!("read {} {}", task, signal));
                } else if tick % 7 < 3 {
                    script.line(&format!("write {} {} {}", task, signal, tick + 20));
                }
            }
            script.line("step");
        }
    }
}

/// Many hyper-periods at once, and a value carried through hyper-periods without publication.
fn hyper_periods(script: &mut Script) {
    script.bytes("table", &crowded(16, 8).bytes());
    let table = read_table(&crowded(16, 8).bytes()).expect("accepted");
    script.bytes(
        "load",
        &schedule_bytes(&plan_schedule(&table).expect("planned")),
    );
    for call in 0..400_u32 {
        let (task, signal) = (call * 7 % 16, call * 3 % 8);
        script.line(&format!("write {} {} {}", task, signal, call + 1_000));
        script.line(&format!("read {} {}", (task + call) % 16, signal));
        script.line(&format!("step {}", call * 37 % 500));
    }
    script.line("step 1000000");
    for task in 0..16 {
        script.line(&format!("read {} 3", task));
    }
    script.line("table -");
    script.line("step 999999");
    script.line("read 0 0");
    script.line("load 454E");
    script.line("read 15 7");
}
