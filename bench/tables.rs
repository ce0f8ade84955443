//! Tables to count on: the full ones, smaller ones of the same kind, and those that cost the most in one place.

#[derive(Clone, Copy)]
pub struct Task {
    pub period: u32,
    pub start: u32,
    pub end: u32,
}

/// The bytes of a table; `reads` and `writes` say which task has which signal.
pub fn encode(
    tasks: &[Task],
    signals: usize,
    reads: impl Fn(usize, usize) -> bool,
    writes: impl Fn(usize, usize) -> bool,
) -> Vec<u8> {
    let mut bytes = Vec::new();
    for task in tasks {
        bytes.extend(b"TK");
        for field in [task.period, task.start, task.end] {
            bytes.extend(field.to_be_bytes());
        }
    }
    for _ in 0..signals {
        bytes.extend(b"SG\0\0\0\x07");
    }
    for task in 0..tasks.len() {
        for signal in 0..signals {
            if reads(task, signal) {
                bytes.extend([b'R', b'D', task as u8, signal as u8]);
            }
            if writes(task, signal) {
                bytes.extend([b'W', b'R', task as u8, signal as u8]);
            }
        }
    }
    bytes.extend(b"EN");
    bytes
}

/// Fifteen tasks of one period and one of another; no two windows end at one tick of the hyper-period.
fn sixteen(period: u32, other: Task) -> Vec<Task> {
    let mut tasks: Vec<Task> = (0..15)
        .map(|task| Task {
            period,
            start: task,
            end: period - task,
        })
        .collect();
    tasks.push(other);
    tasks
}

/// All sixteen tasks use every signal: one of them writes it, the others read it.
fn one_writer_each(signals: usize) -> Vec<u8> {
    // seven instances of fifteen tasks and 23 of one: 128 for each signal
    let tasks = sixteen(
        1380,
        Task {
            period: 420,
            start: 10,
            end: 401,
        },
    );
    encode(
        &tasks,
        signals,
        |task, signal| signal % 16 != task,
        |task, signal| signal % 16 == task,
    )
}

/// Eight tasks of eight instances and eight of five, whose periods take Euclid's rule longest; `last` is the end of the last window.
fn long_divisions(last: u32) -> Vec<Task> {
    let mut tasks: Vec<Task> = (0..16)
        .map(|task| Task {
            period: if task < 8 { 1155 } else { 1848 },
            start: task,
            end: 1155 - task,
        })
        .collect();
    tasks[15].end = last;
    tasks
}

pub const NAMES: [&str; 8] = [
    "writer", "all", "wide", "half", "quarter", "writes", "clash", "burst",
];

pub fn table(name: &str) -> Vec<u8> {
    match name {
        // one writer of 508 instances, four readers of one: 512 instances, 4,096 uses
        "writer" => {
            let mut tasks = vec![Task {
                period: 19,
                start: 0,
                end: 7,
            }];
            tasks.extend((0..4).map(|reader| Task {
                period: 9652,
                start: 900 * reader,
                end: 900 * reader + 1800,
            }));
            encode(&tasks, 8, |task, _| task > 0, |task, _| task == 0)
        }
        // sixteen tasks that all read and write four signals: 512 instances, 4,096 uses
        "all" => encode(
            &sixteen(
                289,
                Task {
                    period: 561,
                    start: 10,
                    end: 545,
                },
            ),
            4,
            |_, _| true,
            |_, _| true,
        ),
        // 32 signals with 512 accesses: 4,096 uses, the longest schedule
        "wide" => one_writer_each(32),
        "half" => one_writer_each(16),
        "quarter" => one_writer_each(8),
        // 512 accesses that all write: the most pairs of writers
        "writes" => encode(&long_divisions(1140), 32, |_, _| false, |_, _| true),
        // the last two tasks publish at one tick, and have one signal in common, the last
        "clash" => encode(
            &long_divisions(1141),
            32,
            |task, signal| task == 15 && signal < 31,
            |task, signal| task < 15 || signal == 31,
        ),
        // all windows close and open at one tick: the longest step; 512 accesses, 3,872 uses
        "burst" => {
            let mut tasks = vec![
                Task {
                    period: 1250,
                    start: 0,
                    end: 1250
                };
                15
            ];
            tasks.push(Task {
                period: 10000,
                start: 0,
                end: 10000,
            });
            encode(
                &tasks,
                32,
                |task, signal| signal % 16 != task,
                |task, signal| signal % 16 == task,
            )
        }
        _ => panic!("no such table: {name}"),
    }
}

/// The hyper-period, and the step in which the most windows close and open.
pub fn busiest(bytes: &[u8]) -> (usize, usize) {
    let records = bytes
        .chunks(14)
        .take_while(|record| record.starts_with(b"TK"));
    let field = |record: &[u8], at: usize| {
        u32::from_be_bytes(record[at..at + 4].try_into().unwrap()) as usize
    };
    let tasks: Vec<[usize; 3]> = records
        .map(|record| [field(record, 2), field(record, 6), field(record, 10)])
        .collect();
    let all_repeat = |tick: &usize| tasks.iter().all(|[period, ..]| tick % period == 0);
    let hyper = (1..).find(all_repeat).unwrap();
    let events = |tick: &usize| {
        tasks
            .iter()
            .map(|[period, start, end]| {
                (tick % period == end % period) as usize + (tick % period == *start) as usize
            })
            .sum::<usize>()
    };
    (hyper, (1..=hyper).max_by_key(events).unwrap())
}
