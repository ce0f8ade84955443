//! Scripts from a seed.

use crate::draft;
use crate::random::{self, table_bytes, Limits, ANY, MEDIUM, SMALL};
use crate::rng::Rng;
use crate::schedule::schedule_bytes;
use crate::script::{planned, Script};

pub const KINDS: [&str; 6] = ["tables", "plans", "lives", "checks", "machines", "mixed"];

/// About `lines` commands of one kind; nothing for an unknown kind.
pub fn generate(seed: u64, lines: usize, kind: &str) -> Option<Vec<u8>> {
    let index = KINDS.iter().position(|known| *known == kind)?;
    // The kind goes into the seed, so that kinds do not share their tables.
    let mut rng = Rng::new(Rng::new(seed).next() ^ index as u64);
    let mut script = Script::default();
    for part in 0..5 {
        if index == part || index == 5 {
            never_missing(&mut script, &mut rng, part);
        }
    }
    while script.lines < lines {
        if rng.one_in(12) {
            noise(&mut script, &mut rng);
        }
        let kind = if index == 5 { rng.below(5) } else { index };
        block(&mut script, &mut rng, kind);
    }
    Some(script.text)
}

/// What no script of the kind goes without, however the dice fall: 20, instances from 256 on, H above 2^32.
fn never_missing(script: &mut Script, rng: &mut Rng, kind: usize) {
    let late = random::many_instances(rng, 400);
    let vast = random::vast(rng).bytes();
    match kind {
        0 => table_lines(script, rng, &vast),
        1 => {
            script.plans(rng, &late.bytes(), 29_000);
            script.line("list");
        }
        2 => script.lives(rng, &late.bytes()),
        3 => {
            script.checks(rng, &late.bytes(), 5);
            let plan = planned(&late.bytes()).expect("planned");
            script.bytes("check", &schedule_bytes(&plan));
            script.checks(rng, &vast, 1);
        }
        _ => {
            let draft = random::draft(rng, SMALL);
            script.overfull_loads(rng, draft);
            script.late_calls(rng, &late);
        }
    }
}

fn noise(script: &mut Script, rng: &mut Rng) {
    if rng.one_in(5) {
        script.binary_noise(rng);
    } else {
        script.noise(rng);
    }
}

fn limits(rng: &mut Rng) -> Limits {
    match rng.below(12) {
        0 => ANY,
        1..=4 => MEDIUM,
        _ => SMALL,
    }
}

fn block(script: &mut Script, rng: &mut Rng, kind: usize) {
    let limits = limits(rng);
    let bytes = if rng.one_in(150) {
        boundary(rng)
    } else {
        table_bytes(rng, limits)
    };
    match kind {
        0 => table_lines(script, rng, &bytes),
        1 => script.plans(rng, &bytes, 29_000),
        2 => script.lives(rng, &bytes),
        3 => {
            let lines = 5 + rng.below(25);
            script.checks(rng, &bytes, lines);
        }
        4 if rng.one_in(12) => {
            let draft = random::draft(rng, limits);
            script.overfull_loads(rng, draft);
        }
        _ => {
            let calls = 20 + rng.below(100);
            script.machine(rng, &bytes, calls);
        }
    }
}

/// The table, and sometimes one damaged from it.
fn table_lines(script: &mut Script, rng: &mut Rng, bytes: &[u8]) {
    script.any_case(rng, "table", bytes);
    if rng.one_in(4) {
        let other = random::damaged(rng, bytes.to_vec());
        script.any_case(rng, "table", &other);
    }
}

/// The largest tables, also one past the bound.
fn boundary(rng: &mut Rng) -> Vec<u8> {
    let tasks = 1 + rng.below(16);
    let signals = rng.below(10) as u8;
    rng.pick(&[
        draft::crowded(16, 8),
        draft::crowded(16, 9),
        draft::crowded(tasks, signals),
        draft::longest(),
        draft::many_uses(8, 8),
        draft::many_uses(8, 9),
        draft::wide(),
    ])
    .bytes()
}
