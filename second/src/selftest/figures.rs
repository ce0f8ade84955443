//! The figures of document 01, bytes and places included.

use super::{refusal, Tally};
use crate::check::check;
use crate::console::Console;
use crate::draft::*;
use crate::hex::to_hex;
use crate::listing::listing;
use crate::plan::plan_schedule;
use crate::schedule::schedule_bytes;
use crate::table::read_table;

pub fn figures(tally: &mut Tally) {
    figures_a_and_b(tally);
    figures_c_to_g(tally);
    figures_h_to_j(tally);
    period_figures(tally);
    bounds(tally);
}

/// Answers of a fresh console to a script, without the last line feed of each.
pub fn answers(lines: &[String]) -> Vec<String> {
    let mut console = Console::new();
    lines
        .iter()
        .map(|line| {
            console
                .answer(line.as_bytes())
                .unwrap_or_default()
                .trim_end()
                .to_string()
        })
        .collect()
}

pub fn table_line(draft: &Draft) -> String {
    format!("table {}", to_hex(&draft.bytes()))
}

fn last_answer(draft: &Draft, line: &str) -> String {
    answers(&[table_line(draft), line.to_string()])
        .pop()
        .unwrap_or_default()
}

const PLAN_A: &str = "42460002574900000000015249000100000052490001000101454E";

fn figures_a_and_b(tally: &mut Tally) {
    let a = figure_a();
    let plan = PLAN_A.to_string();
    tally.same(
        "A table",
        answers(&[table_line(&a)]),
        vec!["0 0 10".to_string()],
    );
    tally.same(
        "A plan",
        last_answer(&a, "plan 27"),
        format!("0 27 {}", plan),
    );
    tally.same(
        "A longer",
        last_answer(&a, "plan 29"),
        format!("0 27 {}AAAA", plan),
    );
    tally.same(
        "A short",
        last_answer(&a, "plan 26"),
        format!("14 27 {}", "AA".repeat(26)),
    );
    tally.same(
        "A live",
        last_answer(&a, "live 0 2"),
        "0 2 255.0.0.5.0 0.0.0.10.1".to_string(),
    );
    tally.same(
        "A check",
        last_answer(&a, &format!("check {}", plan)),
        "0 0".to_string(),
    );
    let text = "hyper 10\nsignal 0 elements 2\nwrite 0 0 element 1\nread 1 0 element 0\nread 1 1 element 1\ntotal 2\n";
    tally.same(
        "A listing",
        listing(&read_table(&a.bytes())),
        text.to_string(),
    );
    let script = format!(
        "{}\nload {}\nread 1 0\nstep 2\nwrite 0 0 20\nstep 2\nread 1 0\nstep\nread 1 0\nstep 5\nread 1 0\nstep 5\nread 1 0",
        table_line(&a), plan
    );
    let lines: Vec<String> = script.lines().map(str::to_string).collect();
    let reads: Vec<String> = lines
        .iter()
        .zip(answers(&lines))
        .filter(|(line, _)| line.starts_with("read"))
        .map(|pair| pair.1)
        .collect();
    tally.same(
        "B",
        reads.join(", "),
        "0 0 7, 0 0 7, 0 0 20, 0 0 20, 0 0 7".to_string(),
    );
}

fn figures_c_to_g(tally: &mut Tally) {
    let c = plan_schedule(&read_table(&figure_c().bytes()).unwrap()).unwrap();
    tally.same("C", (c[0].writers[0].1, c[0].readers[0].1), (1, 1));
    let d = "0 3 255.0.0.2.0 0.0.0.7.1 0.1.5.10.0".to_string();
    tally.same("D", last_answer(&figure_d(), "live 0 3"), d);
    let count =
        |draft: &Draft| plan_schedule(&read_table(&draft.bytes()).unwrap()).unwrap()[0].count;
    tally.same("D count", count(&figure_d()), 2);
    let e = "0 3 255.0.0.9.0 0.0.0.7.1 0.1.5.10.2".to_string();
    tally.same("E", last_answer(&figure_e(), "live 0 3"), e);
    tally.same("E count", count(&figure_e()), 3);
    tally.same(
        "F",
        answers(&[table_line(&figure_f())]).join(""),
        "11 0 0".to_string(),
    );
    tally.same(
        "G",
        last_answer(&figure_g(), "live 0 3"),
        "0 3 255.0.0.4.0 0.0.0.6.1 1.0.2.10.2".to_string(),
    );
    tally.same("G count", count(&figure_g()), 3);
}

fn figures_h_to_j(tally: &mut Tally) {
    let changed = |draft: &Draft, place: usize, element: u8| {
        let table = read_table(&draft.bytes()).unwrap();
        let mut bytes = schedule_bytes(&plan_schedule(&table).unwrap());
        bytes[place] = element;
        refusal(check(&table, &bytes))
    };
    tally.same("H", changed(&figure_d(), 17, 1), (22, 11));
    tally.same("I", changed(&figure_a(), 24, 0), (21, 18));
    tally.same("J no bytes", refusal(read_table(b"")), (1, 0));
    tally.same("J only EN", refusal(read_table(b"EN")), (7, 0));
    tally.same(
        "J no signal",
        last_answer(&Draft::default().task(0, 1, 1), "plan 2"),
        "0 2 454E".to_string(),
    );
}

fn period_figures(tally: &mut Tally) {
    let periods = |list: &[u32]| {
        let draft = list
            .iter()
            .fold(Draft::default(), |draft, period| draft.task(0, 1, *period));
        refusal(read_table(&draft.bytes()))
    };
    tally.same("10,000", periods(&[10_000]), (0, 0));
    tally.same("10,001", periods(&[10_001]), (4, 0));
    tally.same(
        "start equal to end",
        refusal(read_table(&Draft::default().task(3, 3, 5).bytes())),
        (4, 0),
    );
    tally.same("9,999 and 10,000", periods(&[9_999, 10_000]), (8, 0));
    tally.same("1 and 511", periods(&[1, 511]), (0, 0));
    tally.same("1 and 512", periods(&[1, 512]), (9, 0));
}

/// The largest tables that document 01 lets through.
fn bounds(tally: &mut Tally) {
    let needed = |draft: &Draft| last_answer(draft, "plan 0");
    let counts = |draft: &Draft| {
        let schedule = plan_schedule(&read_table(&draft.bytes()).unwrap()).unwrap();
        schedule
            .iter()
            .map(|part| part.count as usize)
            .collect::<Vec<_>>()
    };
    tally.same("32 elements", counts(&crowded(16, 1)), vec![32]);
    tally.same("256 elements", counts(&crowded(16, 8)), vec![32; 8]);
    let mut over = crowded(16, 8);
    over.defaults.push(7);
    tally.same("257 elements", needed(&over), "13 0 -".to_string());
    tally.same(
        "the longest schedule",
        needed(&longest()),
        "14 28802 -".to_string(),
    );
    tally.same(
        "4,096 uses",
        refusal(read_table(&many_uses(8, 8).bytes())),
        (0, 0),
    );
    tally.same(
        "4,097 uses",
        refusal(read_table(&many_uses(8, 9).bytes())),
        (10, 0),
    );
    tally.same("H = 10,000", refusal(read_table(&wide().bytes())), (0, 0));
}
