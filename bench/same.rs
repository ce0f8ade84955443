//! The plain code does the same work: its answers, and all that it writes, are those of the proved library, on tables and schedules of many kinds.

use crate::tables::{encode, table, Task, NAMES};
use crate::{ours, plain, ROOM, UNTOUCHED};

pub struct Dice(pub u64);

impl Dice {
    pub fn below(&mut self, n: usize) -> usize {
        self.0 ^= self.0 << 13;
        self.0 ^= self.0 >> 7;
        self.0 ^= self.0 << 17;
        (self.0 >> 11) as usize % n
    }

    fn one_in(&mut self, n: usize) -> bool {
        self.below(n) == 0
    }

    fn of<T: Copy>(&mut self, list: &[T]) -> T {
        list[self.below(list.len())]
    }
}

fn random_task(dice: &mut Dice, hyper: u32, most: usize) -> Task {
    let period = loop {
        let instances = 1 + dice.below(most) as u32;
        if hyper % instances == 0 {
            break hyper / instances;
        }
    };
    let start = dice.below(period as usize) as u32;
    let end = start + 1 + dice.below((period - start) as usize) as u32;
    Task { period, start, end }
}

fn random_table(dice: &mut Dice) -> Vec<u8> {
    let hyper = dice.of(&[1, 12, 60, 360, 2520, 9240, 9999]);
    let most = dice.of(&[6, 12, 60]);
    let count = dice.of(&[2, 4, 16]);
    let tasks: Vec<Task> = (0..dice.below(count + 1))
        .map(|_| random_task(dice, hyper, most))
        .collect();
    let signals = dice.of(&[0, 1, 2, 4, 32]);
    let (rarely_read, rarely_written) = (dice.below(4) + 1, dice.below(8) + 1);
    let mut reads = [[false; 32]; 16];
    let mut writes = [[false; 32]; 16];
    for k in 0..16 {
        for s in 0..32 {
            reads[k][s] = dice.one_in(rarely_read);
            writes[k][s] = dice.one_in(rarely_written);
        }
    }
    encode(&tasks, signals, |k, s| reads[k][s], |k, s| writes[k][s])
}

/// A byte changed, the end cut off, or a byte too many.
fn damage(dice: &mut Dice, bytes: &mut Vec<u8>) {
    match dice.below(4) {
        0 => bytes.truncate(dice.below(bytes.len() + 1)),
        1 => bytes.push(b'E'),
        _ if bytes.is_empty() => {}
        _ => {
            let at = dice.below(bytes.len());
            bytes[at] = if dice.one_in(2) {
                bytes[at].wrapping_add(1)
            } else {
                dice.below(256) as u8
            };
        }
    }
}

/// Elements and counts changed, so that the form often stays right.
fn reroute(dice: &mut Dice, schedule: &mut [u8]) {
    let mut at = 0;
    let mut limit = 1;
    let rarely = dice.of(&[2, 20, 400]);
    while at + 7 <= schedule.len() {
        if schedule[at] == b'B' {
            if dice.one_in(rarely) {
                schedule[at + 3] = dice.of(&[32, schedule[at + 3].wrapping_add(1)]);
            }
            // at times one too high
            limit = schedule[at + 3] as usize + dice.below(20) / 19;
            at += 4;
        } else {
            if dice.one_in(rarely) {
                schedule[at + 6] = dice.below(limit.max(1)) as u8;
            }
            at += 7;
        }
    }
}

fn told<T>(answer: Result<T, plain::Refused>, done: impl FnOnce(T) -> usize) -> ours::Told {
    match answer {
        Ok(value) => (0, done(value)),
        Err(plain::Refused(number, place)) => (number, place),
    }
}

fn same_plan(table: &[u8], room: usize, seen: &mut [u64; 26]) -> Vec<u8> {
    let mut one = vec![0xAA; room];
    let mut other = vec![0xAA; room];
    let answer = ours::plan(table, &mut one);
    assert_eq!(
        answer,
        told(plain::plan(table, &mut other), |n| n),
        "planning"
    );
    assert!(one == other, "the bytes planned");
    seen[answer.0 as usize] += 1;
    one.truncate(if answer.0 == 0 { answer.1 } else { 0 });
    one
}

fn same_live(table: &[u8], signal: usize, room: usize, seen: &mut [u64; 26]) {
    let mut one = vec![UNTOUCHED; room];
    let mut other = one.clone();
    let answer = ours::live(table, signal, &mut one);
    assert_eq!(
        answer,
        told(plain::live(table, signal, &mut other), |n| n),
        "the live list"
    );
    assert!(one == other, "the records filled");
    seen[answer.0 as usize] += 1;
}

fn word_of<T: Default>(answer: Result<T, plain::Refused>) -> (u8, T) {
    match answer {
        Ok(word) => (0, word),
        Err(plain::Refused(number, _)) => (number, T::default()),
    }
}

/// A byte of both, or a number of two bytes, near the bounds of the lists that it may point into.
fn spoil(dice: &mut Dice, one: &mut plain::Machine, other: &mut plain::Machine) {
    let at = dice.below(one.bytes().len() - 1);
    let (at, spoiled) = if dice.one_in(2) {
        (at, vec![dice.of(&[0, 1, 15, 16, 255])])
    } else {
        let number: u16 = dice.of(&[0, 255, 256, 4095, 4096, u16::MAX]);
        (at / 2 * 2, number.to_ne_bytes().to_vec())
    };
    for machine in [one, other] {
        machine.bytes()[at..at + spoiled.len()].copy_from_slice(&spoiled);
    }
}

/// One call on each, after which they are in the same state; at times both are spoiled first.
fn same_call(dice: &mut Dice, one: &mut plain::Machine, other: &mut plain::Machine) -> u8 {
    if dice.one_in(40) {
        spoil(dice, one, other);
    }
    let (task, signal) = (
        dice.of(&[0, 0, 1, 2, 3, 15, 16, usize::MAX]),
        dice.of(&[0, 0, 1, 2, 31, 32, usize::MAX]),
    );
    let word = dice.below(1 << 32) as u32;
    let number = match dice.below(5) {
        4 => {
            let (number, instance) = ours::open_instance(one, task);
            assert_eq!(
                (number, instance),
                word_of(other.open_instance(task)),
                "the open instance"
            );
            number
        }
        0 => {
            let (number, word) = ours::read(one, task, signal);
            assert_eq!((number, word), word_of(other.read(task, signal)), "a read");
            number
        }
        1 => {
            let number = ours::write(one, task, signal, word);
            assert_eq!(
                (number, 0),
                told(other.write(task, signal, word), |_| 0),
                "a write"
            );
            number
        }
        _ => {
            let number = ours::step(one);
            assert_eq!((number, 0), told(other.step(), |_| 0), "a step");
            number
        }
    };
    assert!(*one == *other, "the state after a call");
    number
}

/// How often each number came back.
pub fn compare(tables: u64) -> [u64; 26] {
    let mut seen = [0; 26];
    let mut one = plain::Machine::new();
    let mut other = plain::Machine::new();
    one.bytes().fill(0xAA);
    ours::new(&mut one);
    assert!(one == other, "a machine before its first loading");
    for seed in 1..=tables {
        let dice = &mut Dice(seed.wrapping_mul(0x9E37_79B9_7F4A_7C15));
        let mut table = match NAMES.get(seed as usize - 1) {
            Some(name) => table(name),
            None => random_table(dice),
        };
        if dice.one_in(5) {
            damage(dice, &mut table);
        }
        let answer = ours::table(&table);
        assert_eq!(
            answer,
            told(plain::Table::read(&table), |_| 0),
            "reading, seed {seed}"
        );
        seen[answer.0 as usize] += 1;
        let mut schedule = same_plan(&table, ROOM, &mut seen);
        same_plan(&table, dice.below(schedule.len() + 3), &mut seen);
        for room in [513, dice.below(20)] {
            let signal = dice.of(&[0, 0, 1, 3, 31, 32, usize::MAX]);
            same_live(&table, signal, room, &mut seen);
        }
        for _ in 0..4 {
            let answer = ours::check(&table, &schedule);
            assert_eq!(
                answer,
                told(plain::check(&table, &schedule), |_| 0),
                "checking, seed {seed}"
            );
            assert_eq!(
                answer,
                ours::load(&mut one, &table, &schedule),
                "loading, seed {seed}"
            );
            assert_eq!(
                answer,
                told(other.load(&table, &schedule), |_| 0),
                "loading, seed {seed}"
            );
            assert!(one == other, "the state after loading, seed {seed}");
            seen[answer.0 as usize] += 1;
            // an unfit machine stays so until it is loaded again
            let mut number = 0;
            for _ in 0..dice.below(80) {
                if number != 25 {
                    number = same_call(dice, &mut one, &mut other);
                    seen[number as usize] += 1;
                }
            }
            reroute(dice, &mut schedule);
            if dice.one_in(4) {
                damage(dice, &mut schedule);
            }
        }
    }
    seen
}
