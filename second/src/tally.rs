//! How often each answer occurs in a corpus, and what the corpus and every fresh script must hold.

use crate::console::Console;
use crate::corpus::{corpus, NAMES};
use crate::gen::generate;
use crate::selftest::Tally;
use crate::watch::{Notes, Watch};
use std::collections::{BTreeMap, BTreeSet};

/// Command and number of its answer, with how often; `bad line` counts under no command.
type Counts = BTreeMap<(String, u32), u64>;

const BAD_LINE: u32 = u32::MAX;

pub const COMMANDS: [&str; 9] = [
    "table", "plan", "list", "live", "check", "load", "step", "read", "write",
];

/// The commands of a script that are answered; the empty one stands for a bad line.
pub fn answered(script: &[u8]) -> BTreeSet<String> {
    seen(script).counts.into_keys().map(|key| key.0).collect()
}

/// What occurs in a script.
struct Seen {
    counts: Counts,
    notes: Notes,
}

/// What, how often it occurs, and how often it must.
type Need = (String, u64, u64);

pub fn corpus_count(name: &str) -> Option<String> {
    let mut text = String::new();
    let seen = seen(&corpus(name)?);
    for ((command, number), times) in seen.counts {
        text += &match number {
            BAD_LINE => format!("bad line: {}\n", times),
            _ => format!("{} {}: {}\n", command, number, times),
        };
    }
    for (what, times) in seen.notes {
        text += &format!("{}: {}\n", what, times);
    }
    Some(text)
}

fn seen(script: &[u8]) -> Seen {
    let mut console = Console::new();
    let mut counts = Counts::new();
    let mut watch = Watch::default();
    for line in script.split(|byte| *byte == b'\n') {
        if let Some(answer) = console.answer(line) {
            *counts.entry(key(line, &answer)).or_insert(0) += 1;
            watch.follow(line, &answer);
        }
    }
    Seen {
        counts,
        notes: watch.notes,
    }
}

fn key(line: &[u8], answer: &str) -> (String, u32) {
    if answer == "bad line\n" {
        return (String::new(), BAD_LINE);
    }
    let command = line.split(|byte| *byte == b' ').next().unwrap_or(line);
    let command = String::from_utf8_lossy(command).to_string();
    let words: Vec<&str> = answer.split_whitespace().collect();
    let number = match words[0] {
        "hyper" => 0,
        "refused" => words[1].parse().unwrap_or(0),
        first => first.parse().unwrap_or(0),
    };
    (command, number)
}

impl Seen {
    fn of(&self, command: &str, number: u32) -> u64 {
        self.counts
            .get(&(command.to_string(), number))
            .copied()
            .unwrap_or(0)
    }

    fn all(&self, command: &str) -> u64 {
        self.counts
            .iter()
            .filter(|(key, _)| key.0 == command)
            .map(|(_, times)| times)
            .sum()
    }

    fn need(&self, what: &str, got: u64, want: u64) -> Need {
        (what.to_string(), got, want)
    }

    fn number(&self, command: &str, number: u32, want: u64) -> Need {
        let what = format!("{} {}", command, number);
        self.need(&what, self.of(command, number), want)
    }

    fn noted(&self, what: &str, want: u64) -> Need {
        self.need(what, self.notes.get(what).copied().unwrap_or(0), want)
    }

    fn late(&self, command: &str, want: u64) -> Need {
        self.noted(&format!("{} from instance 256 on", command), want)
    }
}

pub fn requirements(tally: &mut Tally) {
    for name in NAMES {
        let script = corpus(name).expect("a known name");
        tally.expect(corpus(name).as_ref() == Some(&script), || {
            format!("corpus {} varies", name)
        });
        let needs = needs(name, &seen(&script));
        hold(tally, &format!("corpus {}", name), needs);
    }
    for kind in NAMES.iter().chain(&["mixed"]) {
        for seed in 0..10 {
            let script = generate(seed, 200, kind).expect("a known kind");
            let needs = fresh_needs(kind, &seen(&script));
            hold(tally, &format!("seed {}, kind {}", seed, kind), needs);
        }
    }
}

fn hold(tally: &mut Tally, script: &str, needs: Vec<Need>) {
    for (what, got, want) in needs {
        tally.expect(got >= want, || {
            format!("{}: {} {} of {}", script, what, got, want)
        });
    }
}

fn needs(name: &str, seen: &Seen) -> Vec<Need> {
    match name {
        "tables" => table_needs(seen),
        "plans" => plan_needs(seen),
        "checks" => check_needs(seen),
        "lives" => vec![
            seen.need("lists", seen.of("live", 0) + seen.of("live", 14), 1_000),
            seen.late("live", 5),
        ],
        _ => machine_needs(seen),
    }
}

fn table_needs(seen: &Seen) -> Vec<Need> {
    let mut needs = vec![
        seen.need("table lines", seen.all("table"), 3_000),
        seen.noted("H above 2^32", 50),
        seen.noted("H above 2^32 with low bits that pass", 20),
        seen.noted("H above 2^64", 20),
    ];
    needs.extend((1..=11).map(|number| seen.number("table", number, 20)));
    needs
}

fn plan_needs(seen: &Seen) -> Vec<Need> {
    vec![
        seen.need("tables planned", seen.of("table", 0), 1_500),
        seen.need("tables", seen.all("table"), 1_600),
        seen.number("plan", 13, 5),
        seen.number("plan", 14, 5),
        seen.late("plan", 5),
        seen.late("list", 5),
    ]
}

fn check_needs(seen: &Seen) -> Vec<Need> {
    let mut needs = vec![
        seen.need("check lines", seen.all("check"), 4_000),
        seen.late("check", 10),
        seen.late("check 21", 5),
        seen.late("check 22", 5),
    ];
    needs.extend((1..=11).map(|number| seen.number("check", number, 10)));
    needs.extend((15..=22).map(|number| seen.number("check", number, 50)));
    needs
}

fn machine_needs(seen: &Seen) -> Vec<Need> {
    let calls: u64 = ["read", "write", "step", "load"]
        .iter()
        .map(|command| seen.all(command))
        .sum();
    let mut needs = vec![
        seen.need("calls", calls, 20_000),
        seen.noted("run over three hyper-periods", 1_000),
        seen.need("refused loads", seen.all("load") - seen.of("load", 0), 100),
        seen.number("load", 20, 20),
    ];
    needs.extend((23..=25).map(|number| seen.number("read", number, 1)));
    needs.extend(["load", "read", "write"].map(|command| seen.late(command, 10)));
    needs
}

/// What even a short script of the kind holds.
fn fresh_needs(kind: &str, seen: &Seen) -> Vec<Need> {
    let tables = vec![seen.noted("H above 2^32", 1)];
    let plans = vec![seen.late("plan", 1), seen.late("list", 1)];
    let checks = vec![seen.late("check", 1), seen.number("check", 8, 1)];
    let lives = vec![seen.late("live", 1)];
    let loads = vec![seen.number("load", 20, 1), seen.late("load", 1)];
    let calls = vec![seen.late("read", 1), seen.late("write", 1)];
    match kind {
        "tables" => tables,
        "plans" => plans,
        "checks" => checks,
        "lives" => lives,
        "machines" => [loads, calls].concat(),
        _ => [tables, plans, checks, lives, loads, calls].concat(),
    }
}
