//! Tables planned into buffers of every kind of length.

use super::sample;
use crate::draft::*;
use crate::random::{self, MEDIUM, SMALL};
use crate::rng::Rng;
use crate::script::Script;

pub fn plans(script: &mut Script) {
    script.line("# plans");
    script.line("plan 0");
    script.line("plan 5");
    script.line("list");
    figure_plans(script);
    large_plans(script);
    let mut rng = Rng::new(2);
    for round in 0..1_750 {
        let bytes = match round % 12 {
            0 => random::draft(&mut rng, MEDIUM).bytes(),
            1 => random::spoiled(&mut rng, round / 12 % 13, SMALL),
            _ => random::draft(&mut rng, SMALL).bytes(),
        };
        script.plans(&mut rng, &bytes, 700);
    }
    late_listings(script);
}

/// Instances of 256 and more, planned and listed.
fn late_listings(script: &mut Script) {
    let mut rng = Rng::new(11);
    for most in [258, 258, 260, 300, 400, 511] {
        script.bytes("table", &random::many_instances(&mut rng, most).bytes());
        script.line("list");
        script.line(&format!("plan {}", 40 * most));
    }
}

fn figure_plans(script: &mut Script) {
    for draft in [
        figures(),
        vec![sample(), Draft::default().task(0, 1, 1), Draft::default()],
    ]
    .concat()
    {
        script.bytes("table", &draft.bytes());
        for length in (0..40).chain([27, 28, 60, 120, 240]) {
            script.line(&format!("plan {}", length));
        }
        script.line("list");
    }
    script.line("plan 29001");
}

/// The tables at the bounds; long buffers sparingly.
fn large_plans(script: &mut Script) {
    script.bytes("table", &longest().bytes());
    for length in [28_801, 28_802, 29_000, 0] {
        script.line(&format!("plan {}", length));
    }
    for tasks in 1..=16 {
        script.bytes("table", &crowded(tasks, 1).bytes());
        script.line(if tasks % 5 == 1 { "list" } else { "plan 0" });
    }
    script.line("plan 2176");
    script.bytes("table", &crowded(16, 8).bytes());
    for length in [0, 17_393, 17_394] {
        script.line(&format!("plan {}", length));
    }
    for (tasks, signals, more) in [
        (16, 8, 1),
        (16, 9, 0),
        (15, 8, 1),
        (15, 8, 16),
        (15, 8, 17),
        (12, 10, 16),
        (12, 10, 17),
        (12, 11, 0),
    ] {
        let mut draft = crowded(tasks, signals);
        draft.defaults.resize(signals as usize + more, 7);
        script.bytes("table", &draft.bytes());
        script.line("plan 0");
        script.line("plan 8");
        if signals == 9 {
            script.line("list");
        }
    }
    for draft in [wide(), many_uses(8, 8), many_uses(7, 32)] {
        script.bytes("table", &draft.bytes());
        script.line("plan 0");
        script.line("plan 28800");
    }
    script.bytes(
        "table",
        &Draft::default()
            .task(0, 1, 1)
            .task(0, 511, 511)
            .signals(1)
            .writes(0, 0)
            .reads(1, 0)
            .bytes(),
    );
    script.line("plan 4000");
    script.bytes(
        "table",
        &Draft::default()
            .task(0, 10_000, 10_000)
            .signals(2)
            .reads(0, 0)
            .writes(0, 0)
            .writes(0, 1)
            .bytes(),
    );
    script.line("plan 40");
}
