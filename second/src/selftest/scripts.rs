//! What a script from a seed must hold, so that programs are not compared on scripts that try nothing.

use super::Tally;
use crate::gen::{generate, KINDS};
use crate::tally::{answered, COMMANDS};

const LINES: usize = 2_000;
const SEEDS: u64 = 3;

pub fn scripts(tally: &mut Tally) {
    for kind in KINDS {
        // A kind of few and long blocks may have no noise under one seed.
        let bad_lines = (0..SEEDS).filter(|seed| one_script(tally, *seed, kind));
        let noisy = bad_lines.count() > 0;
        tally.expect(noisy, || format!("scripts of kind {}: no bad line", kind));
    }
    tally.expect(generate(0, LINES, "").is_none(), || {
        "a script of no kind".to_string()
    });
}

/// Whether it has a bad line.
fn one_script(tally: &mut Tally, seed: u64, kind: &str) -> bool {
    let of = |seed: u64, lines: usize| generate(seed, lines, kind).unwrap_or_default();
    let script = of(seed, LINES);
    let mut need = |holds: bool, what: &str| {
        tally.expect(holds, || {
            format!("script {} of kind {}: {}", seed, kind, what)
        });
    };
    for lines in [1, 100, LINES] {
        need(count(&of(seed, lines)) >= lines, "too few lines");
    }
    need(of(seed, LINES) == script, "varies");
    need(
        of(seed + SEEDS, LINES) != script,
        "has another seed's lines",
    );
    let given = answered(&script);
    for command in commands(kind) {
        need(given.contains(*command), &format!("no {}", command));
    }
    given.contains("")
}

fn count(script: &[u8]) -> usize {
    script.iter().filter(|byte| **byte == b'\n').count()
}

/// The commands that a kind is made of; those of kind `mixed` are all there are.
fn commands(kind: &str) -> &'static [&'static str] {
    match kind {
        "tables" => &["table"],
        "plans" => &["table", "plan", "list"],
        "lives" => &["table", "live"],
        "checks" => &["table", "check"],
        "machines" => &["table", "load", "step", "read", "write", "check"],
        _ => &COMMANDS,
    }
}
