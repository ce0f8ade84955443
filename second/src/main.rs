//! The second program: document 01 by brute force, speaking the console language.

mod check;
mod console;
mod corpus;
mod draft;
mod gen;
mod hex;
mod judge;
mod listing;
mod lives;
mod machine;
mod model;
mod plan;
mod random;
mod rng;
mod schedule;
mod script;
mod selftest;
mod table;
mod tally;
mod vary;
mod watch;

use std::io::{self, BufWriter, Read, Write};
use std::process::ExitCode;

const USAGE: &str =
    "second run | list | selftest | gen SEED N [KIND] | corpus NAME | corpus-count NAME";

fn main() -> ExitCode {
    let words: Vec<String> = std::env::args().skip(1).collect();
    let words: Vec<&str> = words.iter().map(String::as_str).collect();
    match words[..] {
        ["run"] => done(console::run(
            io::stdin().lock(),
            BufWriter::new(io::stdout().lock()),
        )),
        ["list"] => done(list()),
        ["selftest"] => exit(selftest::selftest()),
        ["gen", seed, lines] => gen(seed, lines, "mixed"),
        ["gen", seed, lines, kind] => gen(seed, lines, kind),
        ["corpus", name] => write_script(corpus::corpus(name)),
        ["corpus-count", name] => write_script(tally::corpus_count(name).map(String::into_bytes)),
        _ => usage(),
    }
}

fn gen(seed: &str, lines: &str, kind: &str) -> ExitCode {
    match (seed.parse(), lines.parse()) {
        (Ok(seed), Ok(lines)) => write_script(gen::generate(seed, lines, kind)),
        _ => usage(),
    }
}

fn write_script(script: Option<Vec<u8>>) -> ExitCode {
    match script {
        Some(script) => done(io::stdout().write_all(&script)),
        None => usage(),
    }
}

fn usage() -> ExitCode {
    eprintln!("{}", USAGE);
    ExitCode::from(2)
}

fn exit(held: bool) -> ExitCode {
    if held {
        ExitCode::SUCCESS
    } else {
        ExitCode::FAILURE
    }
}

fn done(result: io::Result<()>) -> ExitCode {
    match result {
        Ok(()) => ExitCode::SUCCESS,
        Err(error) => {
            eprintln!("{}", error);
            ExitCode::FAILURE
        }
    }
}

fn list() -> io::Result<()> {
    let mut bytes = Vec::new();
    io::stdin().lock().read_to_end(&mut bytes)?;
    io::stdout().write_all(listing::listing(&table::read_table(&bytes)).as_bytes())
}
