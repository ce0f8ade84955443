//! The timing table: its records, its bounds and the refusals 1 to 11.

pub const MAX_TASKS: usize = 16;
pub const MAX_SIGNALS: usize = 32;
pub const MAX_ACCESSES: usize = 512;
pub const MAX_PERIOD: u32 = 10_000;
pub const MAX_HYPER: u32 = 10_000;
pub const MAX_INSTANCES: u32 = 512;
pub const MAX_USES: u32 = 4_096;

/// A number of document 01 other than 0, with its place.
#[derive(Clone, Copy, Debug, PartialEq, Eq)]
pub struct Refusal {
    pub number: u32,
    pub place: usize,
}

pub fn refuse<T>(number: u32, place: usize) -> Result<T, Refusal> {
    Err(Refusal { number, place })
}

#[derive(Clone, Copy, Debug)]
pub struct Task {
    pub period: u32,
    pub start: u32,
    pub end: u32,
}

/// RD stands before WR in the order of accesses.
#[derive(Clone, Copy, Debug, PartialEq, Eq, PartialOrd, Ord)]
pub enum Access {
    Read,
    Write,
}

/// Instance `number` of a task within the hyper-period.
#[derive(Clone, Copy, Debug, PartialEq, Eq, PartialOrd, Ord)]
pub struct Instance {
    pub task: usize,
    pub number: u32,
}

#[derive(Clone, Debug, Default)]
pub struct Table {
    pub tasks: Vec<Task>,
    pub defaults: Vec<u32>,
    pub accesses: Vec<(usize, usize, Access)>,
    pub hyper: u32,
}

impl Table {
    pub fn has(&self, task: usize, signal: usize, access: Access) -> bool {
        self.accesses.contains(&(task, signal, access))
    }

    pub fn instances(&self, task: usize) -> u32 {
        self.hyper / self.tasks[task].period
    }

    pub fn opening(&self, instance: Instance) -> u32 {
        let task = self.tasks[instance.task];
        instance.number * task.period + task.start
    }

    pub fn closing(&self, instance: Instance) -> u32 {
        let task = self.tasks[instance.task];
        instance.number * task.period + task.end
    }

    /// All instances that read (or write) the signal, by task, then instance.
    pub fn users(&self, signal: usize, access: Access) -> Vec<Instance> {
        let mut users = Vec::new();
        for task in 0..self.tasks.len() {
            if self.has(task, signal, access) {
                users.extend((0..self.instances(task)).map(|number| Instance { task, number }));
            }
        }
        users
    }
}

#[derive(Clone, Copy, PartialEq)]
enum Mark {
    Tk,
    Sg,
    Rd,
    Wr,
    En,
}

impl Mark {
    fn known(bytes: &[u8]) -> Option<Mark> {
        match bytes {
            b"TK" => Some(Mark::Tk),
            b"SG" => Some(Mark::Sg),
            b"RD" => Some(Mark::Rd),
            b"WR" => Some(Mark::Wr),
            b"EN" => Some(Mark::En),
            _ => None,
        }
    }

    fn section(self) -> u32 {
        match self {
            Mark::Tk => 0,
            Mark::Sg => 1,
            Mark::Rd | Mark::Wr => 2,
            Mark::En => 3,
        }
    }

    fn size(self) -> usize {
        match self {
            Mark::Tk => 14,
            Mark::Sg => 6,
            Mark::Rd | Mark::Wr => 4,
            Mark::En => 2,
        }
    }
}

/// Checks 1 to 11 in the order of document 01.
pub fn read_table(bytes: &[u8]) -> Result<Table, Refusal> {
    let (mut table, end) = read_records(bytes)?;
    if end < bytes.len() {
        return refuse(6, end);
    }
    if table.tasks.is_empty() {
        return refuse(7, 0);
    }
    table.hyper = match hyper_period(&table.tasks) {
        Some(hyper) => hyper,
        None => return refuse(8, 0),
    };
    if (0..table.tasks.len())
        .map(|task| table.instances(task))
        .sum::<u32>()
        > MAX_INSTANCES
    {
        return refuse(9, 0);
    }
    if table
        .accesses
        .iter()
        .map(|access| table.instances(access.0))
        .sum::<u32>()
        > MAX_USES
    {
        return refuse(10, 0);
    }
    for signal in 0..table.defaults.len() {
        if two_publish_at_one_tick(&table, signal) {
            return refuse(11, signal);
        }
    }
    Ok(table)
}

/// The records up to EN, and the place after it.
fn read_records(bytes: &[u8]) -> Result<(Table, usize), Refusal> {
    let mut table = Table::default();
    let mut place = 0;
    let mut section = 0;
    loop {
        let mark = read_mark(bytes, place, section)?;
        if place + mark.size() > bytes.len() {
            return refuse(1, place);
        }
        let fields = &bytes[place + 2..place + mark.size()];
        match mark {
            Mark::Tk => add_task(&mut table, fields, place)?,
            Mark::Sg => add_signal(&mut table, fields, place)?,
            Mark::Rd => add_access(&mut table, fields, Access::Read, place)?,
            Mark::Wr => add_access(&mut table, fields, Access::Write, place)?,
            Mark::En => return Ok((table, place + 2)),
        }
        section = mark.section();
        place += mark.size();
    }
}

fn read_mark(bytes: &[u8], place: usize, section: u32) -> Result<Mark, Refusal> {
    if place + 2 > bytes.len() {
        return refuse(1, place);
    }
    match Mark::known(&bytes[place..place + 2]) {
        Some(mark) if mark.section() >= section => Ok(mark),
        _ => refuse(2, place),
    }
}

fn word(bytes: &[u8]) -> u32 {
    bytes.iter().fold(0, |sum, byte| sum * 256 + *byte as u32)
}

fn add_task(table: &mut Table, fields: &[u8], place: usize) -> Result<(), Refusal> {
    if table.tasks.len() == MAX_TASKS {
        return refuse(3, place);
    }
    let (period, start, end) = (
        word(&fields[0..4]),
        word(&fields[4..8]),
        word(&fields[8..12]),
    );
    if period < 1 || period > MAX_PERIOD || start >= end || end > period {
        return refuse(4, place);
    }
    table.tasks.push(Task { period, start, end });
    Ok(())
}

fn add_signal(table: &mut Table, fields: &[u8], place: usize) -> Result<(), Refusal> {
    if table.defaults.len() == MAX_SIGNALS {
        return refuse(3, place);
    }
    table.defaults.push(word(fields));
    Ok(())
}

fn add_access(
    table: &mut Table,
    fields: &[u8],
    access: Access,
    place: usize,
) -> Result<(), Refusal> {
    if table.accesses.len() == MAX_ACCESSES {
        return refuse(3, place);
    }
    let (task, signal) = (fields[0] as usize, fields[1] as usize);
    if task >= table.tasks.len() || signal >= table.defaults.len() {
        return refuse(4, place);
    }
    if table
        .accesses
        .last()
        .is_some_and(|last| *last >= (task, signal, access))
    {
        return refuse(5, place);
    }
    table.accesses.push((task, signal, access));
    Ok(())
}

/// The least number that every period divides, tried one after the other.
fn hyper_period(tasks: &[Task]) -> Option<u32> {
    (1..=MAX_HYPER).find(|h| tasks.iter().all(|task| h % task.period == 0))
}

fn two_publish_at_one_tick(table: &Table, signal: usize) -> bool {
    let mut published = vec![false; table.hyper as usize + 1];
    for writer in table.users(signal, Access::Write) {
        let tick = table.closing(writer) as usize;
        if published[tick] {
            return true;
        }
        published[tick] = true;
    }
    false
}
