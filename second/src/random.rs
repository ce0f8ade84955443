//! Random tables, right and wrong.

use crate::draft::{rd_or_wr, sg, tk, Draft};
use crate::rng::Rng;
use crate::table::MAX_INSTANCES;

/// How large a random table may get.
#[derive(Clone, Copy)]
pub struct Limits {
    pub hyper: u32,
    pub tasks: usize,
    pub signals: usize,
    pub uses: usize,
}

pub const ANY: Limits = Limits {
    hyper: 10_000,
    tasks: 16,
    signals: 32,
    uses: 4_096,
};
pub const SMALL: Limits = Limits {
    hyper: 120,
    tasks: 6,
    signals: 4,
    uses: 60,
};
pub const MEDIUM: Limits = Limits {
    hyper: 1_000,
    tasks: 10,
    signals: 8,
    uses: 200,
};

const HYPERS: [u32; 48] = [
    1, 2, 3, 4, 5, 6, 7, 8, 10, 10, 12, 12, 15, 16, 20, 20, 24, 24, 30, 30, 36, 40, 48, 60, 60, 72,
    84, 90, 96, 100, 120, 120, 144, 180, 240, 256, 360, 420, 720, 840, 1_000, 2_520, 5_040, 7_560,
    8_192, 9_240, 9_973, 10_000,
];

/// A table that document 01 accepts.
pub fn draft(rng: &mut Rng, limits: Limits) -> Draft {
    let fitting: Vec<u32> = HYPERS
        .iter()
        .copied()
        .filter(|h| *h <= limits.hyper)
        .collect();
    let hyper = rng.pick(&fitting);
    let most = 1 + rng.below(limits.tasks);
    let many_writers = rng.one_in(2);
    let unit = if many_writers { unit(rng, hyper) } else { 1 };
    let mut draft = Draft::default();
    let mut left = MAX_INSTANCES;
    let tasks = if many_writers {
        limits.tasks - rng.below(most)
    } else {
        1 + rng.below(most)
    };
    for task in 0..tasks as u32 {
        let reserve = limits.tasks as u32 - task;
        let period = period(rng, hyper / unit, left - reserve) * unit;
        left -= hyper / period;
        let (start, end) = window(rng, period);
        draft = draft.task(start, end, period);
    }
    if many_writers {
        spread_ends(rng, &mut draft, unit);
    }
    let most = if many_writers {
        limits.signals.min(3)
    } else {
        1 + rng.below(limits.signals)
    };
    let signals = if rng.one_in(12) {
        0
    } else {
        1 + rng.below(most)
    };
    draft.defaults = (0..signals).map(|_| word(rng)).collect();
    let rare: &[usize] = if many_writers {
        &[1, 1, 2]
    } else {
        &[1, 2, 2, 3, 6]
    };
    add_accesses(rng, &mut draft, limits, rare);
    draft.without_clashes()
}

/// A divisor of the hyper-period that all periods are to share, so that many windows can end apart.
fn unit(rng: &mut Rng, hyper: u32) -> u32 {
    let units: Vec<u32> = (1..=hyper)
        .filter(|unit| hyper % unit == 0 && hyper / unit <= 64)
        .collect();
    rng.pick(&units)
}

/// Moves window ends so that no two agree modulo the unit, as far as there is room.
fn spread_ends(rng: &mut Rng, draft: &mut Draft, unit: u32) {
    let mut used = Vec::new();
    for [period, start, end] in &mut draft.tasks {
        let free: Vec<u32> = (*start + 1..=*period)
            .filter(|end| !used.contains(&(end % unit)))
            .collect();
        if !free.is_empty() && used.contains(&(*end % unit)) {
            *end = rng.pick(&free);
        }
        used.push(*end % unit);
    }
}

fn period(rng: &mut Rng, hyper: u32, left: u32) -> u32 {
    let fitting: Vec<u32> = (1..=hyper)
        .filter(|p| hyper % p == 0 && hyper / p <= left)
        .collect();
    if rng.one_in(2) {
        // Longer periods more often, so that tables with many tasks stay small.
        let few: Vec<u32> = fitting.iter().copied().filter(|p| hyper / p <= 6).collect();
        return rng.pick(&few);
    }
    rng.pick(&fitting)
}

/// Windows whose ticks often coincide with those of others.
fn window(rng: &mut Rng, period: u32) -> (u32, u32) {
    let part = (period / 4).max(1);
    match rng.below(7) {
        0 => (0, period),
        1 => (0, rng.between(1, period)),
        2 => (rng.between(0, period - 1), period),
        3 => (0, part),
        4 => {
            let start = rng.between(0, period - 1);
            (start, start + 1)
        }
        5 => {
            let start = rng.between(0, 3).min((period - 1) / part) * part;
            (start, (start + part * rng.between(1, 4)).min(period))
        }
        _ => {
            let start = rng.between(0, period - 1);
            (start, rng.between(start + 1, period))
        }
    }
}

pub fn word(rng: &mut Rng) -> u32 {
    match rng.below(5) {
        0 => 0,
        1 => u32::MAX,
        2 => 7,
        3 => rng.below(1_000) as u32,
        _ => rng.next() as u32,
    }
}

fn add_accesses(rng: &mut Rng, draft: &mut Draft, limits: Limits, rare: &[usize]) {
    add_accesses_of(rng, draft, rare);
    while draft.uses() > limits.uses || draft.accesses.len() > 512 {
        draft.accesses.remove(rng.below(draft.accesses.len()));
    }
}

fn add_accesses_of(rng: &mut Rng, draft: &mut Draft, rare: &[usize]) {
    let (reads, writes) = (rng.pick(rare), rng.pick(rare));
    for task in 0..draft.tasks.len() as u8 {
        for signal in 0..draft.defaults.len() as u8 {
            for (write, rare) in [(false, reads), (true, writes)] {
                if rng.one_in(rare) {
                    draft.accesses.push((task, signal, write));
                }
            }
        }
    }
}

/// A table aimed at refusal `number` 1 to 11, or at damage anywhere with 0.
pub fn spoiled(rng: &mut Rng, number: usize, limits: Limits) -> Vec<u8> {
    let mut draft = draft(rng, limits);
    match number {
        1 => cut(rng, draft.bytes()),
        2 => wrong_mark(rng, &draft),
        3 => too_many(rng, draft),
        4 => wrong_field(rng, draft),
        5 => wrong_order(rng, draft),
        6 => {
            let mut bytes = draft.bytes();
            bytes.extend((0..1 + rng.below(5)).map(|_| rng.pick(b"EN\x00TK\xFF")));
            bytes
        }
        7 => {
            draft.tasks.clear();
            draft.accesses.clear();
            draft.bytes()
        }
        8 => coprime(rng, draft).bytes(),
        9 => {
            draft.tasks = vec![[1, 0, 1], [0, 0, 1]];
            draft.tasks[1][0] = 512 + rng.below(3_000) as u32;
            draft.accesses.retain(|access| access.0 < 2);
            draft.bytes()
        }
        10 => overused(rng).bytes(),
        11 => clashing(rng, draft).bytes(),
        _ => damaged(rng, draft.bytes()),
    }
}

pub fn cut(rng: &mut Rng, mut bytes: Vec<u8>) -> Vec<u8> {
    bytes.truncate(rng.below(bytes.len()));
    bytes
}

/// One to three bytes changed, put in or taken out.
pub fn damaged(rng: &mut Rng, mut bytes: Vec<u8>) -> Vec<u8> {
    for _ in 0..1 + rng.below(3) {
        if bytes.is_empty() {
            return bytes;
        }
        let place = rng.below(bytes.len());
        match rng.below(6) {
            0 => bytes.insert(place, rng.next() as u8),
            1 => {
                bytes.remove(place);
            }
            2 => bytes[place] ^= 1 << rng.below(8),
            3 => bytes[place] = bytes[place].wrapping_add(1),
            4 => bytes[place] = rng.pick(&[0, 1, 16, 32, 255]),
            _ => bytes[place] = rng.next() as u8,
        }
    }
    bytes
}

fn wrong_mark(rng: &mut Rng, draft: &Draft) -> Vec<u8> {
    let mut records = draft.records();
    let place = rng.below(records.len());
    match rng.below(4) {
        0 => records[place][rng.below(2)] = rng.next() as u8,
        1 => {
            let other = rng.below(records.len());
            records.swap(place, other);
        }
        2 => records[place][..2]
            .copy_from_slice(&rng.pick(&[*b"TK", *b"SG", *b"RD", *b"WR", *b"BF", *b"en"])),
        _ => records.insert(
            place,
            rng.pick(&[
                tk([10, 0, 10]),
                sg(7),
                rd_or_wr((0, 0, true)),
                b"SG".to_vec(),
            ]),
        ),
    }
    records.concat()
}

fn too_many(rng: &mut Rng, mut draft: Draft) -> Vec<u8> {
    let extra = 1 + rng.below(2);
    if rng.one_in(2) {
        draft.tasks.resize(16 + extra, [10, 0, 10]);
        if rng.one_in(3) {
            draft.tasks[16] = [0, 0, 0];
        }
    } else {
        draft.defaults.resize(32 + extra, 7);
    }
    if rng.one_in(4) {
        let bytes = draft.bytes();
        return cut(rng, bytes);
    }
    draft.bytes()
}

fn wrong_field(rng: &mut Rng, mut draft: Draft) -> Vec<u8> {
    let task = rng.below(draft.tasks.len());
    if rng.one_in(3) && !draft.accesses.is_empty() {
        let place = rng.below(draft.accesses.len());
        let past = rng.pick(&[0, 0, 1, 100]);
        if rng.one_in(2) {
            draft.accesses[place].0 = (draft.tasks.len() + past) as u8;
        } else {
            draft.accesses[place].1 = (draft.defaults.len() + past) as u8;
        }
        return draft.bytes();
    }
    let [period, start, end] = draft.tasks[task];
    draft.tasks[task] = match rng.below(7) {
        0 => [0, start, end],
        1 => [10_001, start, end],
        2 => [period, end, end],
        3 => [period, start, start],
        4 => [period, start, period + 1],
        5 => [u32::MAX, u32::MAX, u32::MAX],
        _ => [period, end, start],
    };
    draft.bytes()
}

fn wrong_order(rng: &mut Rng, mut draft: Draft) -> Vec<u8> {
    if draft.accesses.is_empty() {
        draft.defaults.resize(draft.defaults.len().max(1), 7);
        draft.accesses = vec![(0, 0, false), (0, 0, true)];
    }
    let place = rng.below(draft.accesses.len());
    if rng.one_in(2) {
        draft.accesses.insert(place, draft.accesses[place]);
    } else {
        let other = rng.below(draft.accesses.len());
        draft.accesses.swap(place, other);
    }
    draft.bytes()
}

fn coprime(rng: &mut Rng, mut draft: Draft) -> Draft {
    let prime = rng.pick(&[97, 101, 9_973, 9_999, 4_999]);
    draft = draft.task(0, 1, prime);
    let other = rng.pick(&[10_000, 104, 103, 2_500]);
    draft = draft.task(0, other, other);
    let last = draft.tasks.len();
    draft.tasks.drain(..last.saturating_sub(16));
    draft.accesses.clear();
    draft
}

/// H above 2^32 whose low 32 bits alone would pass, so that arithmetic that wraps is seen.
pub const WRAPPING: [[u32; 3]; 24] = [
    [6_983, 921, 7_346],
    [9_932, 8_422, 9_345],
    [1_373, 2_281, 6_857],
    [4_443, 6_640, 9_463],
    [4_899, 3_423, 8_452],
    [7_823, 5_529, 9_334],
    [9_124, 6_298, 5_531],
    [625, 8_598, 9_591],
    [5_333, 2_728, 9_447],
    [8_069, 7_056, 9_505],
    [1_889, 8_849, 4_368],
    [3_178, 6_298, 9_871],
    [5_196, 7_703, 4_185],
    [5_648, 8_088, 9_026],
    [1_441, 8_167, 7_299],
    [1_387, 2_170, 9_989],
    [3_956, 7_018, 1_547],
    [275, 8_414, 9_281],
    [6_117, 4_505, 1_091],
    [8_597, 8_396, 9_223],
    [3_002, 2_647, 1_081],
    [1_535, 8_405, 9_987],
    [3_880, 8_985, 4_928],
    [2_995, 5_761, 9_708],
];

/// Primes: the first three have their H above 2^32, five above 2^64, ten above 2^128.
pub const PRIMES: [u32; 16] = [
    9_973, 9_967, 9_949, 9_941, 9_931, 9_929, 9_923, 9_907, 9_901, 9_887, 9_883, 9_871, 9_859,
    9_857, 9_851, 9_839,
];

/// A table whose H is above 2^32.
pub fn vast(rng: &mut Rng) -> Draft {
    let number = 4 + rng.below(13);
    let periods = if rng.one_in(2) {
        rng.pick(&WRAPPING).to_vec()
    } else {
        PRIMES[..number].to_vec()
    };
    let mut draft = Draft::default().signals(rng.below(3));
    for period in periods {
        let (start, end) = window(rng, period);
        draft = draft.task(start, end, period);
    }
    add_accesses_of(rng, &mut draft, &[2, 6]);
    draft
}

/// A table with a task of 258 to `most` instances that reads and writes signal 0, alone in writing it.
pub fn many_instances(rng: &mut Rng, most: u32) -> Draft {
    let period = rng.pick(&[1, 2, 3, 5, 12]);
    let hyper = period * rng.between(258, most);
    let mut draft = Draft::default();
    let fast = rng.below(2) as u8;
    for task in 0..2 {
        let period = if task == fast { period } else { hyper };
        let (start, end) = window(rng, period);
        draft = draft.task(start, end, period);
    }
    draft.defaults = (0..1 + rng.below(3)).map(|_| word(rng)).collect();
    draft = draft.reads(fast, 0).writes(fast, 0);
    if rng.one_in(2) {
        draft = draft.reads(1 - fast, 0);
    }
    for signal in 1..draft.defaults.len() as u8 {
        draft = draft.reads(1 - fast, signal).writes(1 - fast, signal);
        if rng.one_in(3) {
            draft = draft.reads(fast, signal);
        }
    }
    draft.without_clashes()
}

fn overused(rng: &mut Rng) -> Draft {
    let hyper = rng.between(150, 511);
    let mut draft = Draft::default()
        .task(0, 1, 1)
        .task(0, rng.between(1, hyper), hyper)
        .signals(32);
    let needed = 4_097_u32.div_ceil(hyper).min(32) as u8;
    for signal in 0..needed {
        draft = draft.reads(0, signal);
    }
    for signal in 0..rng.below(33) as u8 {
        draft = draft.writes(1, signal);
    }
    draft
}

fn clashing(rng: &mut Rng, mut draft: Draft) -> Draft {
    if draft.tasks.len() == 16 {
        draft.tasks.pop();
        draft.accesses.retain(|access| access.0 < 15);
    }
    let old = rng.below(draft.tasks.len());
    draft.tasks.push(draft.tasks[old]);
    draft.defaults.resize(draft.defaults.len().max(1), 7);
    let new = draft.tasks.len() as u8 - 1;
    for _ in 0..1 + rng.below(2) {
        let signal = rng.below(draft.defaults.len()) as u8;
        draft.accesses.retain(|access| {
            *access != (old as u8, signal, true) && *access != (new, signal, true)
        });
        draft = draft.writes(old as u8, signal).writes(new, signal);
    }
    draft
}

/// Mostly accepted tables, but every refusal regularly.
pub fn table_bytes(rng: &mut Rng, limits: Limits) -> Vec<u8> {
    match rng.below(4) {
        0 => {
            let number = rng.below(13);
            spoiled(rng, number, limits)
        }
        _ => draft(rng, limits).bytes(),
    }
}
