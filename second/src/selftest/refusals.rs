//! Refusals worked out by hand: tables, schedules and console lines.

use super::figures::{answers, table_line};
use super::{refusal, Tally};
use crate::check::check;
use crate::draft::*;
use crate::plan::plan_schedule;
use crate::schedule::schedule_bytes;
use crate::table::read_table;

pub fn refusals(tally: &mut Tally) {
    cut_tables(tally);
    ordered_tables(tally);
    full_tables(tally);
    last_rules(tally);
    schedules(tally);
    console_lines(tally);
}

fn table(tally: &mut Tally, what: &str, parts: &[&[u8]], want: (u32, usize)) {
    tally.same(what, refusal(read_table(&parts.concat())), want);
}

/// A has records at 0, 14, 28, 34, 38 and 42.
fn cut_tables(tally: &mut Tally) {
    let bytes = figure_a().bytes();
    for length in 0..bytes.len() {
        let start = [0, 14, 28, 34, 38, 42]
            .iter()
            .copied()
            .rfind(|start| *start <= length);
        table(tally, "A cut", &[&bytes[..length]], (1, start.unwrap_or(0)));
    }
    table(tally, "A and a byte", &[&bytes, b"\x00"], (6, 44));
    table(tally, "A and EN", &[&bytes, b"EN"], (6, 44));
    table(tally, "half a mark", &[b"X"], (1, 0));
    table(tally, "unknown mark", &[b"XY"], (2, 0));
    table(tally, "small letters", &[b"tk"], (2, 0));
}

fn ordered_tables(tally: &mut Tally) {
    let (task, signal) = (tk([5, 0, 5]), sg(7));
    let (read, write) = (rd_or_wr((0, 0, false)), rd_or_wr((0, 0, true)));
    table(
        tally,
        "TK after SG",
        &[&task, &signal, &task, b"EN"],
        (2, 20),
    );
    table(tally, "cut TK after SG", &[&task, &signal, b"TK"], (2, 20));
    table(tally, "cut SG", &[&task, &signal, b"SG\x00"], (1, 20));
    table(
        tally,
        "SG after RD",
        &[&task, &signal, &read, b"SG"],
        (2, 24),
    );
    table(
        tally,
        "RD and WR",
        &[&task, &signal, &read, &write, b"EN"],
        (0, 0),
    );
    table(
        tally,
        "WR and RD",
        &[&task, &signal, &write, &read, b"EN"],
        (5, 24),
    );
    table(
        tally,
        "RD twice",
        &[&task, &signal, &read, &read, b"EN"],
        (5, 24),
    );
    table(
        tally,
        "field before order",
        &[&task, &signal, &write, b"RD\x00\x01EN"],
        (4, 24),
    );
    table(
        tally,
        "task past the end",
        &[&task, &signal, b"RD\x01\x00EN"],
        (4, 20),
    );
    table(tally, "access without task", &[b"RD\x00\x00EN"], (4, 0));
    table(tally, "6 before 7", &[b"EN", b"E"], (6, 2));
    table(tally, "only SG", &[&signal, b"EN"], (7, 0));
    table(
        tally,
        "end past the period",
        &[&task, &tk([5, 0, 6]), b"EN"],
        (4, 14),
    );
}

fn full_tables(tally: &mut Tally) {
    let tasks = tk([1, 0, 1]).repeat(16);
    let signals = sg(7).repeat(32);
    table(tally, "16 tasks", &[&tasks, b"EN"], (0, 0));
    table(tally, "17th TK", &[&tasks, &tk([1, 0, 1]), b"EN"], (3, 224));
    table(
        tally,
        "17th TK cut",
        &[&tasks, &tk([1, 0, 1])[..13]],
        (1, 224),
    );
    table(
        tally,
        "17th TK with bad fields",
        &[&tasks, &tk([0, 0, 0])],
        (3, 224),
    );
    table(tally, "32 signals", &[&tasks, &signals, b"EN"], (0, 0));
    table(tally, "33rd SG", &[&tasks, &signals, &sg(7)], (3, 416));
    table(
        tally,
        "33rd SG cut",
        &[&tasks, &signals, b"SG\x00\x00\x00"],
        (1, 416),
    );
    let accesses: Vec<u8> = (0..512_u32)
        .flat_map(|i| rd_or_wr(((i / 32) as u8, (i % 32) as u8, false)))
        .collect();
    table(
        tally,
        "512 accesses",
        &[&tasks, &signals, &accesses, b"EN"],
        (0, 0),
    );
    table(
        tally,
        "513th access",
        &[&tasks, &signals, &accesses, b"WR\xFF\xFF"],
        (3, 2464),
    );
    table(
        tally,
        "513th access cut",
        &[&tasks, &signals, &accesses, b"WR\xFF"],
        (1, 2464),
    );
}

fn last_rules(tally: &mut Tally) {
    let of = |draft: Draft| refusal(read_table(&draft.bytes()));
    let one_tick = |list: &[u32]| {
        list.iter()
            .fold(Draft::default(), |d, period| d.task(0, 1, *period))
    };
    tally.same("H just above", of(one_tick(&[5_001, 2])), (8, 0));
    tally.same(
        "H = 10,000 by 625 and 16",
        of(one_tick(&[625, 16, 625, 16, 10_000])),
        (9, 0),
    );
    tally.same("8 before 9", of(one_tick(&[1, 9_999, 10_000])), (8, 0));
    let sixteen = [&[5_040; 15][..], &[11]].concat();
    tally.same("H only at the 16th task", of(one_tick(&sixteen)), (8, 0));
    let clash = Draft::default().task(0, 5, 5).task(0, 10, 10).signals(4);
    let clash = clash
        .writes(0, 3)
        .writes(1, 3)
        .writes(0, 2)
        .writes(1, 2)
        .writes(1, 0);
    tally.same("lowest clash", of(clash), (11, 2));
    let apart = Draft::default().task(0, 4, 5).task(0, 10, 10).signals(1);
    tally.same(
        "closings apart",
        of(apart.writes(0, 0).writes(1, 0)),
        (0, 0),
    );
}

/// D has records at 0 (BF), 4 and 11 (WI), 18 (RI) and 25 (EN).
fn schedules(tally: &mut Tally) {
    let table = read_table(&figure_d().bytes()).expect("accepted");
    let plan = schedule_bytes(&plan_schedule(&table).expect("planned"));
    for length in 0..plan.len() {
        let start = [0, 4, 11, 18, 25]
            .iter()
            .copied()
            .rfind(|start| *start <= length);
        tally.same(
            "D cut",
            refusal(check(&table, &plan[..length])),
            (15, start.unwrap_or(0)),
        );
    }
    let mut with = |changes: &[(usize, u8)], tail: &[u8], want: (u32, usize)| {
        let mut bytes = plan.clone();
        changes
            .iter()
            .for_each(|(place, value)| bytes[*place] = *value);
        bytes.extend(tail);
        tally.same(
            &format!("D with {:?}", changes),
            refusal(check(&table, &bytes)),
            want,
        );
    };
    with(&[(2, 1)], b"", (16, 0));
    with(&[(3, 0)], b"", (17, 0));
    with(&[(3, 33)], b"", (17, 0));
    with(&[(3, 32)], b"", (0, 0));
    with(&[(10, 2)], b"", (18, 4));
    with(&[(24, 2)], b"", (18, 18));
    with(&[(3, 1)], b"", (18, 4));
    with(&[(26, b'X')], b"", (16, 25));
    with(&[(17, 1)], b"", (22, 11));
    with(&[(10, 0), (24, 0)], b"", (22, 4));
    with(&[(10, 0)], b"", (21, 18));
    with(&[(17, 1), (24, 0)], b"", (21, 18));
    with(&[(17, 1), (24, 0)], b"\x00", (19, 27));
    with(&[(3, 33), (2, 1)], b"", (16, 0));
    with(&[(10, 9), (12, 9)], b"\x00", (18, 4));
}

fn console_lines(tally: &mut Tally) {
    let lines = [
        ("", ""),
        ("# x", ""),
        (" # x", "bad line"),
        ("list", "refused 1 place 0"),
        ("plan 0", "1 0 -"),
        ("check 454E", "1 0"),
        ("load 454E", "1 0"),
        ("step", "25 0"),
        ("step 0", "0 0"),
        ("read 0 0", "25 0 0"),
        ("write 9 9 9", "25 0"),
        ("table 454e", "7 0 0"),
        ("plan 001", "7 0 AA"),
        ("live 5 0", "7 0"),
        ("TABLE", ""),
        ("table 4", "bad line"),
        ("live 0 1", "14 2 170.43690.2863311530.2863311530.170"),
        ("live 1 0", "23 0"),
        ("live 18446744073709551615 0", "23 0"),
        ("live 18446744073709551616 0", "bad line"),
        ("live 0 601", "bad line"),
        ("plan 29001", "bad line"),
        ("plan  1", "bad line"),
        ("plan 1 ", "bad line"),
        ("plan\t1", "bad line"),
        ("list\r", "bad line"),
        ("step 1000001", "bad line"),
        ("check -", "15 0"),
        (
            "load 42460002574900000000015249000100000052490001000101454E",
            "0 0",
        ),
        ("read 1 0", "0 0 7"),
        ("read 0 0", "23 0 0"),
        ("write 1 0 5", "23 0"),
        ("write 0 0 4294967296", "bad line"),
        ("write 0 0 4294967295", "0 0"),
        ("step 4", "0 0"),
        ("write 0 0 1", "24 0"),
        ("table -", "1 0 0"),
        ("load 454E", "1 0"),
        ("step 00001", "0 0"),
        ("read 1 0", "0 0 4294967295"),
        ("step 1000000", "0 0"),
        ("read 1 0", "0 0 7"),
        ("read 18446744073709551615 0", "23 0 0"),
        ("step 5", "0 0"),
        ("write 0 0 3", "0 0"),
    ];
    let a = table_line(&figure_a());
    let script: Vec<String> = lines
        .iter()
        .map(|(line, _)| {
            if *line == "TABLE" {
                a.clone()
            } else {
                line.to_string()
            }
        })
        .collect();
    for (line, answer) in lines.iter().zip(answers(&script)) {
        if line.0 != "TABLE" {
            tally.same(&format!("line {:?}", line.0), answer, line.1.to_string());
        }
    }
}
