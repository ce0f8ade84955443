//! Table lines: both sides of every bound, every damage of a small table, every refusal.

use super::{changed, sample};
use crate::draft::*;
use crate::random::{self, MEDIUM, SMALL};
use crate::rng::Rng;
use crate::script::Script;

pub fn tables(script: &mut Script) {
    script.line("# tables");
    script.line("");
    shortest(script);
    damages(script);
    cuts(script);
    bounds(script);
    mark_orders(script);
    past_the_number(script);
    access_orders(script);
    sums(script);
    vast_hypers(script);
    clashes(script);
    long_lines(script);
    script.every_bad_line();
    let mut rng = Rng::new(1);
    for round in 0..900 {
        let limits = if round % 9 == 0 {
            random::ANY
        } else if round % 3 == 0 {
            MEDIUM
        } else {
            SMALL
        };
        let bytes = if round % 3 == 2 {
            random::spoiled(&mut rng, round / 3 % 13, limits)
        } else {
            random::draft(&mut rng, limits).bytes()
        };
        script.any_case(&mut rng, "table", &bytes);
    }
    script.text.pop();
}

fn shortest(script: &mut Script) {
    script.line("table -");
    for byte in [0, 1, b'T', b'K', b'S', b'R', b'W', b'E', b'N', 255] {
        script.bytes("table", &[byte]);
    }
    for mark in [
        b"TK", b"SG", b"RD", b"WR", b"EN", b"BF", b"WI", b"RI", b"tk", b"KT", b"NE",
    ] {
        script.bytes("table", mark);
    }
    for draft in figures() {
        script.bytes("table", &draft.bytes());
    }
}

/// Every other value of each byte of the shortest table, some of each byte of A and of the sample.
fn damages(script: &mut Script) {
    let single = Draft::default().task(0, 1, 1).bytes();
    for place in 0..single.len() {
        for value in 0..=255 {
            changed(script, "table", &single, place, value);
        }
    }
    for bytes in [figure_a().bytes(), sample().bytes()] {
        for place in 0..bytes.len() {
            for value in [
                0,
                1,
                2,
                5,
                16,
                32,
                255,
                bytes[place] ^ 1,
                bytes[place] ^ 128,
                bytes[place] ^ 32,
            ] {
                changed(script, "table", &bytes, place, value);
            }
        }
    }
}

fn cuts(script: &mut Script) {
    for bytes in [figure_a().bytes(), sample().bytes()] {
        for length in 0..bytes.len() {
            script.bytes("table", &bytes[..length]);
        }
        for tail in [
            b"\x00".to_vec(),
            b"E".to_vec(),
            b"EN".to_vec(),
            b"EN\x00".to_vec(),
            tk([1, 0, 1]),
            sg(7),
        ] {
            script.bytes("table", &[bytes.clone(), tail].concat());
        }
    }
}

/// Both sides of the bounds of the fields.
fn bounds(script: &mut Script) {
    for number in [0, 1, 2, 15, 16, 17, 18] {
        let draft = (0..number).fold(Draft::default(), |draft, _| draft.task(0, 1, 1));
        script.bytes("table", &draft.bytes());
        script.bytes("table", &draft.signals(1).bytes());
    }
    for number in [0, 1, 31, 32, 33, 34] {
        script.bytes(
            "table",
            &Draft::default().task(0, 1, 1).signals(number).bytes(),
        );
        script.bytes("table", &Draft::default().signals(number).bytes());
    }
    for period in [
        0,
        1,
        2,
        255,
        256,
        9_999,
        10_000,
        10_001,
        65_535,
        65_536,
        1 << 24,
        1 << 31,
        u32::MAX,
    ] {
        for (start, end) in [
            (0, 1),
            (0, period),
            (0, period.wrapping_add(1)),
            (period, period),
            (period.wrapping_sub(1), period),
        ] {
            script.bytes("table", &Draft::default().task(start, end, period).bytes());
        }
    }
    for start in 0..8 {
        for end in 0..8 {
            script.bytes("table", &Draft::default().task(start, end, 6).bytes());
        }
    }
    for field in [u32::MAX, 1 << 31, 1 << 16] {
        script.bytes("table", &Draft::default().task(field, 5, 5).bytes());
        script.bytes("table", &Draft::default().task(0, field, 5).bytes());
        script.bytes("table", &Draft::default().task(field - 1, field, 5).bytes());
        script.bytes("table", &Draft::default().task(field, field, field).bytes());
    }
}

/// All orders of up to four marks; each record is whole and right by itself.
fn mark_orders(script: &mut Script) {
    let records = [
        tk([6, 0, 3]),
        sg(7),
        rd_or_wr((0, 0, false)),
        rd_or_wr((0, 0, true)),
        b"EN".to_vec(),
    ];
    let mut orders: Vec<Vec<u8>> = vec![Vec::new()];
    for _ in 0..4 {
        orders = orders
            .iter()
            .flat_map(|order| {
                records
                    .iter()
                    .map(move |r| [order.clone(), r.clone()].concat())
            })
            .collect();
        for order in &orders {
            script.bytes("table", order);
        }
    }
    // A record of an earlier section is out of order even when it is cut.
    for (before, after) in [
        (sg(7), tk([6, 0, 3])),
        (rd_or_wr((0, 0, false)), tk([6, 0, 3])),
        (rd_or_wr((0, 0, true)), sg(7)),
    ] {
        let start = [tk([6, 0, 3]), sg(7), before].concat();
        for length in 0..after.len() {
            script.bytes("table", &[start.clone(), after[..length].to_vec()].concat());
        }
    }
}

/// The 17th TK, the 33rd SG and the 513th access: cut, whole, and whole with bad fields.
fn past_the_number(script: &mut Script) {
    let tasks = (0..16).fold(Draft::default(), |draft, _| draft.task(0, 1, 1));
    let mut start = tasks.bytes();
    start.truncate(16 * 14);
    for last in [
        tk([1, 0, 1]),
        tk([0, 0, 0]),
        tk([u32::MAX; 3]),
        tk([1, 1, 0]),
    ] {
        past(script, &start, &last);
    }
    let mut start = tasks.signals(32).bytes();
    start.truncate(16 * 14 + 32 * 6);
    past(script, &start, &sg(7));
    past(script, &start, &sg(u32::MAX));
    past_accesses(script, &start);
}

fn past(script: &mut Script, start: &[u8], last: &[u8]) {
    for length in 0..=last.len() {
        script.bytes("table", &[start, &last[..length]].concat());
    }
    script.bytes("table", &[start, last, b"EN"].concat());
    script.bytes("table", &[start, b"EN"].concat());
}

fn past_accesses(script: &mut Script, start: &[u8]) {
    let reads = |number: usize| -> Vec<u8> {
        let access = |index: usize| rd_or_wr(((index / 32) as u8, (index % 32) as u8, false));
        (0..number).flat_map(access).collect()
    };
    for number in [511, 512] {
        script.bytes("table", &[start, &reads(number), b"EN"].concat());
    }
    let full = [start, &reads(512)[..]].concat();
    for last in [
        (15, 31, true),
        (0, 0, false),
        (16, 0, true),
        (15, 32, true),
        (255, 255, false),
    ] {
        let last = rd_or_wr(last);
        script.bytes("table", &[&full[..], &last, b"EN"].concat());
    }
    for length in 1..4 {
        script.bytes(
            "table",
            &[&full[..], &rd_or_wr((15, 31, true))[..length]].concat(),
        );
    }
    script.bytes("table", &[&full[..], b"BF", b"EN"].concat());
    script.bytes("table", &[&full[..], &sg(7)].concat());
}

/// All pairs of accesses, and names just past the end.
fn access_orders(script: &mut Script) {
    let base = Draft::default().task(0, 1, 2).task(1, 2, 2).signals(2);
    let all: Vec<(u8, u8, bool)> = (0..8)
        .map(|index| (index / 4, index / 2 % 2, index % 2 == 1))
        .collect();
    for first in &all {
        for second in &all {
            let mut draft = base.clone();
            draft.accesses = vec![*first, *second];
            script.bytes("table", &draft.bytes());
        }
    }
    for task in [0, 1, 2, 3, 16, 128, 255] {
        for signal in [0, 1, 2, 3, 32, 128, 255] {
            for write in [false, true] {
                let mut draft = base.clone();
                draft.accesses = vec![(0, 1, true), (task, signal, write)];
                script.bytes("table", &draft.bytes());
            }
        }
    }
}

/// Hyper-period, instances and uses on both sides of their bounds.
fn sums(script: &mut Script) {
    let periods = |list: &[u32]| {
        list.iter()
            .fold(Draft::default(), |draft, period| draft.task(0, 1, *period))
    };
    for pair in [
        [9_999, 10_000],
        [10_000, 10_000],
        [10_000, 5_000],
        [10_000, 3],
        [100, 101],
        [100, 99],
        [99, 101],
        [10_000, 1_600],
        [625, 16],
        [625, 32],
        [127, 79],
        [73, 137],
        [100, 100],
        [9_973, 9_967],
        [5_001, 2],
        [4_999, 2],
        [4_999, 3],
        [3_333, 3],
        [3_334, 3],
        [1, 511],
        [1, 512],
        [511, 1],
        [512, 1],
        [2, 1_022],
        [2, 1_024],
        [2, 511],
        [3, 1_533],
        [3, 1_536],
        [20, 10_000],
        [19, 9_728],
        [1, 10_000],
        [1, 1],
    ] {
        script.bytes("table", &periods(&pair).bytes());
    }
    for hyper in 70..80 {
        script.bytes("table", &periods(&[1, 1, 1, 1, 1, 1, 1, hyper]).bytes());
    }
    for last in [1, 2, 7, 9, 11, 13, 16, 25, 32, 5_040, 10_000, 10_080] {
        let fifteen = [
            5_040, 2_520, 1_680, 1_260, 1_008, 840, 720, 630, 560, 504, 420, 360, 336, 315, 280,
        ];
        script.bytes("table", &periods(&[&fifteen[..], &[last]].concat()).bytes());
        script.bytes(
            "table",
            &periods(&[&[10_000; 15][..], &[last]].concat()).bytes(),
        );
    }
    for first in 7..10 {
        for second in 6..12 {
            script.bytes("table", &many_uses(first, second).bytes());
        }
    }
    let mut longest_over = longest();
    script.bytes("table", &longest_over.bytes());
    longest_over = longest_over.reads(1, 31);
    script.bytes("table", &longest_over.bytes());
    for draft in [
        crowded(16, 1),
        crowded(16, 8),
        crowded(16, 9),
        crowded(16, 13),
        crowded(16, 14),
        wide(),
    ] {
        script.bytes("table", &draft.bytes());
    }
}

/// H above 2^32, 2^64 and 2^128: 8 whatever its true value, also where more is broken.
fn vast_hypers(script: &mut Script) {
    let task = |draft: Draft, period: &u32| draft.task(0, 1, *period);
    for [one, other, last] in random::WRAPPING {
        for periods in [[one, other, last], [last, other, one], [other, last, one]] {
            let draft = periods.iter().fold(Draft::default(), task);
            script.bytes("table", &draft.bytes());
        }
    }
    for number in 2..=16 {
        let draft = random::PRIMES[..number].iter().fold(Draft::default(), task);
        script.bytes("table", &draft.bytes());
        let both = draft.signals(1).writes(0, 0).writes(number as u8 - 1, 0);
        script.bytes("table", &both.bytes());
    }
    let mut rng = Rng::new(7);
    for _ in 0..20 {
        script.bytes("table", &random::vast(&mut rng).bytes());
    }
}

/// Writers that publish together, the lowest such signal first, last or between.
fn clashes(script: &mut Script) {
    for first in 0..4 {
        for second in 0..4 {
            for (end, period) in [(5, 5), (10, 10), (5, 10), (4, 5), (2, 5)] {
                let draft = Draft::default()
                    .task(0, 5, 5)
                    .task(1, end, period)
                    .task(0, 3, 10)
                    .signals(4);
                let draft = draft.writes(0, first).writes(1, first).writes(2, second);
                let draft = if first == second {
                    draft
                } else {
                    draft.writes(0, second)
                };
                script.bytes("table", &draft.bytes());
            }
        }
    }
    for (one, other) in [(97, 100), (99, 100), (10_000, 20), (73, 137)] {
        for end in [1, 2, other] {
            let draft = Draft::default()
                .task(0, 1, one)
                .task(0, end, other)
                .signals(3)
                .writes(0, 2)
                .writes(1, 2);
            script.bytes("table", &draft.bytes());
        }
    }
}

fn long_lines(script: &mut Script) {
    for (byte, length) in [(b'T', 65_536), (0, 30_000), (b'E', 29_997)] {
        script.bytes("table", &vec![byte; length]);
    }
    script.bytes("table", &tk([1, 0, 1]).repeat(200));
    let mut after = figure_a().bytes();
    after.resize(5_000, b'E');
    script.bytes("table", &after);
    script.bytes("table", &b"EN".repeat(2_000));
}
