//! The fixed scripts of the committed corpus; no seed goes in.

mod checks;
mod lives;
mod machines;
mod plans;
mod tables;

use crate::draft::Draft;
use crate::script::Script;

pub const NAMES: [&str; 5] = ["tables", "plans", "checks", "lives", "machines"];

pub fn corpus(name: &str) -> Option<Vec<u8>> {
    let mut script = Script::default();
    match name {
        "tables" => tables::tables(&mut script),
        "plans" => plans::plans(&mut script),
        "checks" => checks::checks(&mut script),
        "lives" => lives::lives(&mut script),
        "machines" => machines::machines(&mut script),
        _ => return None,
    }
    Some(script.text)
}

/// A table of every record kind, small enough to damage everywhere.
fn sample() -> Draft {
    let draft = Draft::default()
        .task(0, 3, 6)
        .task(1, 4, 4)
        .task(2, 11, 12)
        .signals(2);
    draft
        .reads(0, 1)
        .writes(0, 0)
        .reads(1, 0)
        .writes(1, 1)
        .reads(2, 0)
        .reads(2, 1)
        .writes(2, 1)
}

/// `signals` signals, of which signal 1 is written and read, so that counts can sum past 256.
fn many_signals(signals: usize) -> Draft {
    Draft::default()
        .task(0, 4, 10)
        .task(0, 5, 5)
        .signals(signals)
        .writes(0, 1)
        .reads(1, 1)
}

fn changed(script: &mut Script, word: &str, bytes: &[u8], place: usize, value: u8) {
    if bytes[place] != value {
        let mut bytes = bytes.to_vec();
        bytes[place] = value;
        script.bytes(word, &bytes);
    }
}
