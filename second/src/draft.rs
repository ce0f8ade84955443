//! Tables under construction: good ones and wrong ones alike.

#[derive(Clone, Debug, Default)]
pub struct Draft {
    /// Period, start, end.
    pub tasks: Vec<[u32; 3]>,
    pub defaults: Vec<u32>,
    /// Task, signal, and whether it is a WR; the tuple order is the order of accesses.
    pub accesses: Vec<(u8, u8, bool)>,
}

impl Draft {
    /// A window written as in document 01: "start-end/period".
    pub fn task(mut self, start: u32, end: u32, period: u32) -> Draft {
        self.tasks.push([period, start, end]);
        self
    }

    pub fn signals(mut self, number: usize) -> Draft {
        self.defaults.extend(vec![7; number]);
        self
    }

    pub fn reads(mut self, task: u8, signal: u8) -> Draft {
        self.accesses.push((task, signal, false));
        self.accesses.sort();
        self
    }

    pub fn writes(mut self, task: u8, signal: u8) -> Draft {
        self.accesses.push((task, signal, true));
        self.accesses.sort();
        self
    }

    /// Every record with EN last.
    pub fn records(&self) -> Vec<Vec<u8>> {
        let mut records = Vec::new();
        records.extend(self.tasks.iter().map(|task| tk(*task)));
        records.extend(self.defaults.iter().map(|default| sg(*default)));
        records.extend(self.accesses.iter().map(|access| rd_or_wr(*access)));
        records.push(b"EN".to_vec());
        records
    }

    pub fn bytes(&self) -> Vec<u8> {
        self.records().concat()
    }

    /// Leaves out each writer that would publish together with one before it.
    pub fn without_clashes(mut self) -> Draft {
        let mut kept: Vec<(u8, u8, bool)> = Vec::new();
        for access in self.accesses.clone() {
            let clash = |other: &(u8, u8, bool)| {
                other.2 && other.1 == access.1 && self.clash(other.0, access.0)
            };
            if !access.2 || !kept.iter().any(clash) {
                kept.push(access);
            }
        }
        self.accesses = kept;
        self
    }

    /// Two windows close together somewhere exactly when their ends agree modulo the periods' divisor.
    fn clash(&self, one: u8, other: u8) -> bool {
        let (one, other) = (self.tasks[one as usize], self.tasks[other as usize]);
        one[2].abs_diff(other[2]) % gcd(one[0], other[0]) == 0
    }

    pub fn hyper(&self) -> u64 {
        self.tasks.iter().fold(1, |h, task| {
            h / gcd(h as u32, task[0]) as u64 * task[0] as u64
        })
    }

    pub fn shortest_period(&self) -> u32 {
        self.tasks.iter().map(|task| task[0]).min().unwrap_or(0)
    }

    /// How often the accesses of one task are used.
    pub fn instances(&self, task: u8) -> usize {
        (self.hyper() / self.tasks[task as usize][0] as u64) as usize
    }

    pub fn uses(&self) -> usize {
        self.accesses
            .iter()
            .map(|access| self.instances(access.0))
            .sum()
    }
}

pub fn tk(fields: [u32; 3]) -> Vec<u8> {
    let mut record = b"TK".to_vec();
    for field in fields {
        record.extend(field.to_be_bytes());
    }
    record
}

pub fn sg(default: u32) -> Vec<u8> {
    let mut record = b"SG".to_vec();
    record.extend(default.to_be_bytes());
    record
}

pub fn rd_or_wr(access: (u8, u8, bool)) -> Vec<u8> {
    let mark: &[u8; 2] = if access.2 { b"WR" } else { b"RD" };
    vec![mark[0], mark[1], access.0, access.1]
}

fn gcd(a: u32, b: u32) -> u32 {
    if b == 0 {
        a
    } else {
        gcd(b, a % b)
    }
}

pub fn figure_a() -> Draft {
    Draft::default()
        .task(0, 4, 10)
        .task(0, 5, 5)
        .signals(1)
        .writes(0, 0)
        .reads(1, 0)
}

pub fn figure_c() -> Draft {
    Draft::default()
        .task(0, 5, 10)
        .task(5, 10, 10)
        .signals(1)
        .writes(0, 0)
        .reads(1, 0)
}

pub fn figure_d() -> Draft {
    Draft::default()
        .task(0, 2, 5)
        .task(2, 3, 10)
        .signals(1)
        .writes(0, 0)
        .reads(1, 0)
}

pub fn figure_e() -> Draft {
    Draft::default()
        .task(0, 2, 5)
        .task(0, 9, 10)
        .signals(1)
        .writes(0, 0)
        .reads(1, 0)
}

pub fn figure_f() -> Draft {
    Draft::default()
        .task(0, 5, 5)
        .task(0, 10, 10)
        .signals(1)
        .writes(0, 0)
        .writes(1, 0)
}

pub fn figure_g() -> Draft {
    Draft::default()
        .task(0, 4, 10)
        .task(2, 6, 10)
        .signals(1)
        .writes(0, 0)
        .writes(1, 0)
}

pub fn figures() -> Vec<Draft> {
    vec![
        figure_a(),
        figure_c(),
        figure_d(),
        figure_e(),
        figure_f(),
        figure_g(),
    ]
}

/// Divisors of 7,560: with periods 7,560 / d each task is opened after a publication the ones before missed.
const DIVISORS: [u32; 16] = [1, 2, 3, 4, 5, 6, 7, 8, 9, 10, 12, 14, 15, 18, 20, 21];

/// `tasks` tasks that all read and write `signals` signals, each of which needs 2 * `tasks` elements.
pub fn crowded(tasks: usize, signals: u8) -> Draft {
    let mut draft = Draft::default().signals(signals as usize);
    for (index, divisor) in DIVISORS.iter().take(tasks).enumerate() {
        let period = 7_560 / divisor;
        draft = draft.task(0, period - index as u32, period);
        for signal in 0..signals {
            draft = draft.reads(index as u8, signal).writes(index as u8, signal);
        }
    }
    draft
}

/// 32 signals and 4,096 uses: the longest schedule.
pub fn longest() -> Draft {
    let mut draft = Draft::default().task(0, 1, 1).task(0, 128, 128).signals(32);
    for signal in 0..32 {
        draft = draft.reads(0, signal);
    }
    draft
}

/// 512 instances by periods 1 and 511; task 0 reads `first` signals, task 1 `second`.
pub fn many_uses(first: u8, second: u8) -> Draft {
    let mut draft = Draft::default().task(0, 1, 1).task(0, 511, 511).signals(32);
    for signal in 0..first {
        draft = draft.reads(0, signal);
    }
    for signal in 0..second {
        draft = draft.reads(1, signal);
    }
    draft
}

/// H = 10,000 with writers and readers of many instances: 4,096 uses again.
pub fn wide() -> Draft {
    let mut draft = Draft::default()
        .task(0, 30, 40)
        .task(10, 39, 50)
        .task(0, 10_000, 10_000)
        .signals(9);
    for signal in 0..9 {
        draft = if signal % 2 == 0 {
            draft.writes(0, signal)
        } else {
            draft.reads(0, signal)
        };
        draft = if signal % 2 == 0 {
            draft.reads(1, signal)
        } else {
            draft.writes(1, signal)
        };
        draft = draft.reads(2, signal);
    }
    draft
}
