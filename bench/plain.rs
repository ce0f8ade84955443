//! The same calls in plain Rust, without proofs: the algorithms and the answers are those of the proved library, the code is as a careful engineer would write
//! it for this firmware (arrays, no heap, a bounds test wherever the compiler does not see that none is needed).

const MOST_TASKS: usize = 16;
const MOST_SIGNALS: usize = 32;
const MOST_ACCESSES: usize = 512;
const MOST_INSTANCES: usize = 512;
const MOST_USES: usize = 4096;
const MOST_EVENTS: usize = 2 * MOST_INSTANCES;
const MOST_ELEMENTS: usize = 32;
const LONGEST: u32 = 10_000;
const WORDS: usize = 256;

const READ: u8 = 1;
const WRITE: u8 = 2;

const BF_BYTES: usize = 4;
const USE_BYTES: usize = 7;
const BEFORE_ELEMENT: usize = 6;

/// Points nowhere.
const NONE: u16 = u16::MAX;

/// Document 01's number and place.
#[derive(Clone, Copy, PartialEq, Debug)]
pub struct Refused(pub u8, pub usize);

#[derive(Clone, Copy, Default)]
struct Task {
    period: u32,
    start: u32,
    end: u32,
}

pub struct Table {
    tasks: [Task; MOST_TASKS],
    task_count: usize,
    defaults: [u32; MOST_SIGNALS],
    signal_count: usize,
    grid: [[u8; MOST_SIGNALS]; MOST_TASKS],
    hyper: u32,
    instances: [usize; MOST_TASKS],
}

fn word(record: &[u8], at: usize) -> u32 {
    u32::from_be_bytes([record[at], record[at + 1], record[at + 2], record[at + 3]])
}

fn gcd(a: u32, b: u32) -> u32 {
    if b == 0 {
        a
    } else {
        gcd(b, a % b)
    }
}

// Reading.

impl Table {
    fn empty() -> Table {
        Table {
            tasks: [Task::default(); MOST_TASKS],
            task_count: 0,
            defaults: [0; MOST_SIGNALS],
            signal_count: 0,
            grid: [[0; MOST_SIGNALS]; MOST_TASKS],
            hyper: 1,
            instances: [0; MOST_TASKS],
        }
    }

    fn tasks(&self) -> &[Task] {
        &self.tasks[..self.task_count]
    }

    fn has(&self, right: u8, task: usize, signal: usize) -> bool {
        self.grid[task][signal] & right != 0
    }

    /// 1 to 6.
    fn records(bytes: &[u8]) -> Result<Table, Refused> {
        let mut table = Table::empty();
        let mut at = 0;
        let mut section = 0;
        let mut accesses = 0;
        let mut last = 0;
        loop {
            let rest = &bytes[at..];
            let mark = rest.first_chunk::<2>().ok_or(Refused(1, at))?;
            match mark {
                b"TK" if section == 0 => {
                    let record = rest.first_chunk::<14>().ok_or(Refused(1, at))?;
                    if table.task_count == MOST_TASKS {
                        return Err(Refused(3, at));
                    }
                    let task = Task {
                        period: word(record, 2),
                        start: word(record, 6),
                        end: word(record, 10),
                    };
                    if task.end <= task.start || task.period < task.end || LONGEST < task.period {
                        return Err(Refused(4, at));
                    }
                    table.tasks[table.task_count] = task;
                    table.task_count += 1;
                    at += record.len();
                }
                b"SG" if section <= 1 => {
                    section = 1;
                    let record = rest.first_chunk::<6>().ok_or(Refused(1, at))?;
                    if table.signal_count == MOST_SIGNALS {
                        return Err(Refused(3, at));
                    }
                    table.defaults[table.signal_count] = word(record, 2);
                    table.signal_count += 1;
                    at += record.len();
                }
                b"RD" | b"WR" => {
                    section = 2;
                    let record = rest.first_chunk::<4>().ok_or(Refused(1, at))?;
                    if accesses == MOST_ACCESSES {
                        return Err(Refused(3, at));
                    }
                    let right = if mark == b"RD" { READ } else { WRITE };
                    let (task, signal) = (record[2] as usize, record[3] as usize);
                    if table.task_count <= task || table.signal_count <= signal {
                        return Err(Refused(4, at));
                    }
                    let key = (task * 256 + signal) * 4 + right as usize;
                    if key <= last {
                        return Err(Refused(5, at));
                    }
                    table.grid[task][signal] |= right;
                    last = key;
                    accesses += 1;
                    at += record.len();
                }
                b"EN" => {
                    at += mark.len();
                    break;
                }
                _ => return Err(Refused(2, at)),
            }
        }
        if at < bytes.len() {
            return Err(Refused(6, at));
        }
        Ok(table)
    }

    /// 1 to 11.
    #[inline(never)]
    pub fn read(bytes: &[u8]) -> Result<Table, Refused> {
        let mut table = Table::records(bytes)?;
        if table.task_count == 0 {
            return Err(Refused(7, 0));
        }
        for k in 0..table.task_count {
            let period = table.tasks[k].period;
            table.hyper = table.hyper / gcd(table.hyper, period) * period;
            if LONGEST < table.hyper {
                return Err(Refused(8, 0));
            }
        }
        let mut instances = 0;
        for k in 0..table.task_count {
            table.instances[k] = (table.hyper / table.tasks[k].period) as usize;
            instances += table.instances[k];
        }
        if MOST_INSTANCES < instances {
            return Err(Refused(9, 0));
        }
        let mut uses = 0;
        for (row, instances) in table.grid.iter().zip(table.instances) {
            let accesses: u32 = row.iter().map(|cell| cell.count_ones()).sum();
            uses += accesses as usize * instances;
        }
        if MOST_USES < uses {
            return Err(Refused(10, 0));
        }
        for signal in 0..table.signal_count {
            if table.two_publish(signal) {
                return Err(Refused(11, signal));
            }
        }
        Ok(table)
    }

    /// Whether two writers of the signal publish at one tick.
    fn two_publish(&self, signal: usize) -> bool {
        for (k, task) in self.tasks().iter().enumerate() {
            if !self.has(WRITE, k, signal) {
                continue;
            }
            for (j, other) in self.tasks[..k].iter().enumerate() {
                if self.has(WRITE, j, signal) {
                    let common = gcd(other.period, task.period);
                    if other.end % common == task.end % common {
                        return true;
                    }
                }
            }
        }
        false
    }

    fn records_of(&self, right: u8, task: usize, signal: usize) -> usize {
        if self.has(right, task, signal) {
            self.instances[task]
        } else {
            0
        }
    }
}

// Openings and closings, in their order: by tick, closings before openings, then by task.

const KIND: u32 = MOST_TASKS as u32;
const TICK: u32 = 2 * KIND;

struct Events {
    list: [u32; MOST_EVENTS],
    count: usize,
}

impl Events {
    fn of(table: &Table) -> Events {
        let end = table.hyper * TICK + KIND;
        let mut next = [u32::MAX; MOST_TASKS];
        for (k, task) in table.tasks().iter().enumerate() {
            next[k] = task.start * TICK + KIND + k as u32;
        }
        let mut events = Events {
            list: [0; MOST_EVENTS],
            count: 0,
        };
        loop {
            let mut k = 0;
            for j in 1..table.task_count {
                if next[j] < next[k] {
                    k = j;
                }
            }
            let event = next[k];
            if end <= event {
                return events;
            }
            events.list[events.count] = event;
            events.count += 1;
            let task = &table.tasks[k];
            next[k] = if event & KIND != 0 {
                event + (task.end - task.start) * TICK - KIND
            } else {
                event + (task.period - task.end + task.start) * TICK + KIND
            };
        }
    }

    fn iter(&self) -> impl Iterator<Item = u32> + '_ {
        self.list[..self.count].iter().copied()
    }
}

// Planning.

/// The number of each task's first use of a signal as a writer and as a reader; returns the number after them.
fn first_uses(
    table: &Table,
    signal: usize,
    from: usize,
) -> ([usize; MOST_TASKS], [usize; MOST_TASKS], usize) {
    let mut writers = [0; MOST_TASKS];
    let mut readers = [0; MOST_TASKS];
    let mut next = from;
    for (firsts, right) in [(&mut writers, WRITE), (&mut readers, READ)] {
        for k in 0..table.task_count {
            firsts[k] = next;
            next += table.records_of(right, k, signal);
        }
    }
    (writers, readers, next)
}

/// The lowest element whose value is no longer live at the tick.
fn lowest_free(held: &[u32; MOST_ELEMENTS], tick: u32) -> usize {
    held.iter()
        .position(|&until| until <= tick)
        .unwrap_or(MOST_ELEMENTS - 1)
}

/// The elements of a signal's uses; returns how many elements there are and the number of the next signal's first use.
fn plan_signal(
    table: &Table,
    events: &Events,
    signal: usize,
    from: usize,
    uses: &mut [u8; MOST_USES],
) -> (u8, usize) {
    let (writers, readers, next) = first_uses(table, signal, from);
    let mut held = [0; MOST_ELEMENTS];
    held[0] = LONGEST;
    let mut own = [0; MOST_TASKS];
    let mut current = 0;
    let mut reach = 0;
    let mut count = 1;
    for event in events.iter() {
        let k = (event % KIND) as usize;
        let right = table.grid[k][signal];
        if right == 0 {
            continue;
        }
        let task = &table.tasks[k];
        let tick = event / TICK;
        if event & KIND != 0 {
            let i = tick / task.period;
            if right & READ != 0 {
                uses[readers[k] + i as usize] = current as u8;
                reach = reach.max(i * task.period + task.end);
            }
            if right & WRITE != 0 {
                let e = lowest_free(&held, tick);
                held[e] = LONGEST;
                own[k] = e;
                uses[writers[k] + i as usize] = e as u8;
                count = count.max(e + 1);
            }
        } else if right & WRITE != 0 {
            held[current] = tick.max(reach);
            current = own[k];
            reach = 0;
        }
    }
    (count as u8, next)
}

/// 1 to 14, or the bytes planned.
#[inline(never)]
pub fn plan(bytes: &[u8], out: &mut [u8]) -> Result<usize, Refused> {
    let table = Table::read(bytes)?;
    let events = Events::of(&table);
    let mut counts = [0; MOST_SIGNALS];
    let mut uses = [0; MOST_USES];
    let mut used = 0;
    for signal in 0..table.signal_count {
        (counts[signal], used) = plan_signal(&table, &events, signal, used, &mut uses);
    }
    if WORDS < counts.iter().map(|&count| count as usize).sum() {
        return Err(Refused(13, 0));
    }
    let length = BF_BYTES * table.signal_count + USE_BYTES * used + 2;
    let out = out.get_mut(..length).ok_or(Refused(14, length))?;
    write_schedule(&table, &counts, &uses, out);
    Ok(length)
}

fn write_schedule(
    table: &Table,
    counts: &[u8; MOST_SIGNALS],
    uses: &[u8; MOST_USES],
    out: &mut [u8],
) {
    let mut at = 0;
    let mut used = 0;
    for signal in 0..table.signal_count {
        out[at..at + BF_BYTES].copy_from_slice(&[b'B', b'F', signal as u8, counts[signal]]);
        at += BF_BYTES;
        for (letter, right) in [(b'W', WRITE), (b'R', READ)] {
            for k in 0..table.task_count {
                for i in 0..table.records_of(right, k, signal) {
                    let [high, low] = (i as u16).to_be_bytes();
                    out[at..at + USE_BYTES].copy_from_slice(&[
                        letter,
                        b'I',
                        signal as u8,
                        k as u8,
                        high,
                        low,
                        uses[used],
                    ]);
                    at += USE_BYTES;
                    used += 1;
                }
            }
        }
    }
    out[at..].copy_from_slice(b"EN");
}

// Checking.

/// 15 to 20.
fn form(table: &Table, schedule: &[u8]) -> Result<(), Refused> {
    let mut at = 0;
    let mut sum = 0;
    for signal in 0..table.signal_count {
        let record = schedule[at..]
            .first_chunk::<BF_BYTES>()
            .ok_or(Refused(15, at))?;
        if record[..3] != [b'B', b'F', signal as u8] {
            return Err(Refused(16, at));
        }
        let count = record[3];
        if !(1..=MOST_ELEMENTS as u8).contains(&count) {
            return Err(Refused(17, at));
        }
        sum += count as usize;
        at += BF_BYTES;
        for (letter, right) in [(b'W', WRITE), (b'R', READ)] {
            for k in 0..table.task_count {
                for i in 0..table.records_of(right, k, signal) {
                    let record = schedule[at..]
                        .first_chunk::<USE_BYTES>()
                        .ok_or(Refused(15, at))?;
                    let [high, low] = (i as u16).to_be_bytes();
                    if record[..BEFORE_ELEMENT] != [letter, b'I', signal as u8, k as u8, high, low]
                    {
                        return Err(Refused(16, at));
                    }
                    if count <= record[BEFORE_ELEMENT] {
                        return Err(Refused(18, at));
                    }
                    at += USE_BYTES;
                }
            }
        }
    }
    let end = schedule[at..].first_chunk::<2>().ok_or(Refused(15, at))?;
    if end != b"EN" {
        return Err(Refused(16, at));
    }
    if at + 2 < schedule.len() {
        return Err(Refused(19, at + 2));
    }
    if WORDS < sum {
        return Err(Refused(20, 0));
    }
    Ok(())
}

/// Where the elements of a signal's instances stand in a schedule whose form is right.
struct Elements<'a> {
    schedule: &'a [u8],
    writers: [usize; MOST_TASKS],
    readers: [usize; MOST_TASKS],
}

impl<'a> Elements<'a> {
    fn of(table: &Table, signal: usize, from: usize, schedule: &'a [u8]) -> (Elements<'a>, usize) {
        let (mut writers, mut readers, next) = first_uses(table, signal, from);
        for k in 0..MOST_TASKS {
            writers[k] = BF_BYTES * (signal + 1) + USE_BYTES * writers[k] + BEFORE_ELEMENT;
            readers[k] = BF_BYTES * (signal + 1) + USE_BYTES * readers[k] + BEFORE_ELEMENT;
        }
        (
            Elements {
                schedule,
                writers,
                readers,
            },
            next,
        )
    }

    fn writer(&self, task: usize, instance: u32) -> usize {
        self.schedule[self.writers[task] + USE_BYTES * instance as usize] as usize
    }

    fn reader(&self, task: usize, instance: u32) -> usize {
        self.schedule[self.readers[task] + USE_BYTES * instance as usize] as usize
    }
}

fn signal_passes(table: &Table, events: &Events, signal: usize, elements: &Elements) -> bool {
    let mut held = [0; MOST_ELEMENTS];
    held[0] = LONGEST;
    let mut current = 0;
    let mut reach = 0;
    for event in events.iter() {
        let k = (event % KIND) as usize;
        let right = table.grid[k][signal];
        if right == 0 {
            continue;
        }
        let task = &table.tasks[k];
        let tick = event / TICK;
        if event & KIND != 0 {
            let i = tick / task.period;
            if right & READ != 0 {
                if elements.reader(k, i) != current {
                    return false;
                }
                reach = reach.max(tick - task.start + task.end);
            }
            if right & WRITE != 0 {
                let e = elements.writer(k, i);
                if tick < held[e] {
                    return false;
                }
                held[e] = LONGEST;
            }
        } else if right & WRITE != 0 {
            held[current] = tick.max(reach);
            current = elements.writer(k, (tick - 1) / task.period);
            reach = 0;
        }
    }
    true
}

/// 1 to 11 for the table, then 15 to 22.
#[inline(never)]
pub fn check(bytes: &[u8], schedule: &[u8]) -> Result<Table, Refused> {
    let table = Table::read(bytes)?;
    form(&table, schedule)?;
    let events = Events::of(&table);
    let mut used = 0;
    for signal in 0..table.signal_count {
        let (elements, next) = Elements::of(&table, signal, used, schedule);
        if !signal_passes(&table, &events, signal, &elements) {
            return Err(first_fault(&table, schedule));
        }
        used = next;
    }
    Ok(table)
}

// A refusal's place: the first reader sent wrong, else the first shared element.

#[derive(Clone, Copy)]
struct Life {
    element: usize,
    from: u32,
    until: u32,
}

/// The element of the value that stands at a tick.
fn bound(table: &Table, signal: usize, tick: u32, elements: &Elements) -> usize {
    let mut latest = 0;
    let mut element = 0;
    for (k, task) in table.tasks().iter().enumerate() {
        if table.has(WRITE, k, signal) && task.end <= tick {
            let i = (tick - task.end) / task.period;
            let closing = i * task.period + task.end;
            if latest < closing {
                latest = closing;
                element = elements.writer(k, i);
            }
        }
    }
    element
}

/// Until when the value published at a tick, 0 for the carried one, is live.
fn until(table: &Table, signal: usize, published: u32) -> u32 {
    let mut next = table.hyper;
    for (k, task) in table.tasks().iter().enumerate() {
        if table.has(WRITE, k, signal) {
            let mut closing = task.end;
            if closing <= published {
                closing += ((published - closing) / task.period + 1) * task.period;
            }
            next = next.min(closing);
        }
    }
    let mut reached = next;
    for (k, task) in table.tasks().iter().enumerate() {
        if table.has(READ, k, signal) && task.start < next {
            let first = (next - 1 - task.start) / task.period * task.period;
            if published <= first + task.start {
                reached = reached.max(first + task.end);
            }
        }
    }
    reached
}

fn wrong_reader(table: &Table, signal: usize, elements: &Elements) -> Option<usize> {
    for (k, task) in table.tasks().iter().enumerate() {
        for i in 0..table.records_of(READ, k, signal) {
            let opens = i as u32 * task.period + task.start;
            if elements.reader(k, i as u32) != bound(table, signal, opens, elements) {
                return Some(elements.readers[k] + USE_BYTES * i - BEFORE_ELEMENT);
            }
        }
    }
    None
}

fn shared(table: &Table, signal: usize, elements: &Elements) -> Option<usize> {
    let mut lives = [Life {
        element: 0,
        from: 0,
        until: until(table, signal, 0),
    }; MOST_INSTANCES + 1];
    let mut count = 1;
    for (k, task) in table.tasks().iter().enumerate() {
        for i in 0..table.records_of(WRITE, k, signal) {
            let begins = i as u32 * task.period;
            let life = Life {
                element: elements.writer(k, i as u32),
                from: begins + task.start,
                until: until(table, signal, begins + task.end),
            };
            let clash = |earlier: &Life| {
                earlier.element == life.element
                    && earlier.from < life.until
                    && life.from < earlier.until
            };
            if lives[..count].iter().any(clash) {
                return Some(elements.writers[k] + USE_BYTES * i - BEFORE_ELEMENT);
            }
            lives[count] = life;
            count += 1;
        }
    }
    None
}

fn first_fault(table: &Table, schedule: &[u8]) -> Refused {
    for (number, search) in [
        (
            21,
            wrong_reader as fn(&Table, usize, &Elements) -> Option<usize>,
        ),
        (22, shared),
    ] {
        let mut used = 0;
        for signal in 0..table.signal_count {
            let (elements, next) = Elements::of(table, signal, used, schedule);
            if let Some(at) = search(table, signal, &elements) {
                return Refused(number, at);
            }
            used = next;
        }
    }
    unreachable!("a schedule that does not pass has a fault")
}

// The live list: the carried value, then each writer instance as its window opens.

/// Laid out as the proved library's record.
#[repr(C)]
#[derive(Clone, Copy, PartialEq)]
pub struct LiveValue {
    pub task: u8,
    pub instance: u16,
    pub from: u32,
    pub until: u32,
    pub element: u8,
}

/// 1 to 11, 14 or 23, or the records filled. No signal needs more than 32 elements.
#[inline(never)]
pub fn live(bytes: &[u8], signal: usize, list: &mut [LiveValue]) -> Result<usize, Refused> {
    let table = Table::read(bytes)?;
    if table.signal_count <= signal {
        return Err(Refused(23, 0));
    }
    let written = |k| table.records_of(WRITE, k, signal);
    let needed = 1 + (0..table.task_count).map(written).sum::<usize>();
    let list = list.get_mut(..needed).ok_or(Refused(14, needed))?;
    let mut held = [0; MOST_ELEMENTS];
    held[0] = until(&table, signal, 0);
    list[0] = LiveValue {
        task: u8::MAX,
        instance: 0,
        from: 0,
        until: held[0],
        element: 0,
    };
    let events = Events::of(&table);
    let openings = events
        .iter()
        .filter(|event| event & KIND != 0 && table.has(WRITE, (event % KIND) as usize, signal));
    for (value, event) in list[1..].iter_mut().zip(openings) {
        let k = (event % KIND) as usize;
        let from = event / TICK;
        let task = &table.tasks[k];
        let i = from / task.period;
        let last = until(&table, signal, i * task.period + task.end);
        let e = lowest_free(&held, from);
        held[e] = last;
        *value = LiveValue {
            task: k as u8,
            instance: i as u16,
            from,
            until: last,
            element: e as u8,
        };
    }
    Ok(needed)
}

// The machine.

/// `struct press_machine`, with the parts of its numbers, so that the two can be compared byte by byte. Marked as loaded is 1.
#[repr(C)]
#[derive(Clone, PartialEq)]
pub struct Machine {
    loaded: u16,
    hyper: u16,
    periods: [u16; MOST_TASKS],
    starts: [u16; MOST_TASKS],
    ends: [u16; MOST_TASKS],
    counts: [u16; MOST_TASKS],
    reads: [[u16; MOST_SIGNALS]; MOST_TASKS],
    writes: [[u16; MOST_SIGNALS]; MOST_TASKS],
    uses: [u16; MOST_USES],
    carried: [u16; MOST_SIGNALS],
    held: [u16; MOST_SIGNALS],
    tick: u16,
    pub unused: u16,
    pub defaults: [u32; MOST_SIGNALS],
    pub store: [u32; WORDS],
}

/// No branch, here and below, so that the loops over these become vector code.
fn in_block(positions: &[u16]) -> bool {
    positions
        .iter()
        .fold(true, |ok, &p| ok & (p < WORDS as u16))
}

/// Each is no access, or an index of the list of uses with so many uses from there on inside it.
fn in_uses(firsts: &[u16], count: u16) -> bool {
    let last = MOST_USES as u16 - count.max(1);
    firsts
        .iter()
        .fold(true, |ok, &p| ok & ((p <= last) | (p == NONE)))
}

impl Machine {
    pub const fn new() -> Machine {
        Machine {
            loaded: 0,
            hyper: 0,
            periods: [0; MOST_TASKS],
            starts: [0; MOST_TASKS],
            ends: [0; MOST_TASKS],
            counts: [0; MOST_TASKS],
            reads: [[0; MOST_SIGNALS]; MOST_TASKS],
            writes: [[0; MOST_SIGNALS]; MOST_TASKS],
            uses: [0; MOST_USES],
            carried: [0; MOST_SIGNALS],
            held: [0; MOST_SIGNALS],
            tick: 0,
            unused: 0,
            defaults: [0; MOST_SIGNALS],
            store: [0; WORDS],
        }
    }

    /// Each may have any value: there is no padding.
    pub fn bytes(&mut self) -> &mut [u8] {
        unsafe {
            std::slice::from_raw_parts_mut(
                (self as *mut Machine).cast::<u8>(),
                std::mem::size_of::<Machine>(),
            )
        }
    }

    #[inline(never)]
    pub fn load(&mut self, bytes: &[u8], schedule: &[u8]) -> Result<(), Refused> {
        let table = check(bytes, schedule)?;
        *self = Machine {
            unused: self.unused,
            ..Machine::new()
        };
        self.loaded = 1;
        self.hyper = table.hyper as u16;
        self.reads = [[NONE; MOST_SIGNALS]; MOST_TASKS];
        self.writes = self.reads;
        self.defaults = table.defaults;
        for (k, task) in table.tasks().iter().enumerate() {
            self.periods[k] = task.period as u16;
            self.starts[k] = task.start as u16;
            self.ends[k] = task.end as u16;
            self.counts[k] = table.instances[k] as u16;
        }
        let mut used = 0;
        let mut base = 0;
        for signal in 0..table.signal_count {
            let (writers, readers, next) = first_uses(&table, signal, used);
            for k in 0..table.task_count {
                if table.has(WRITE, k, signal) {
                    self.writes[k][signal] = writers[k] as u16;
                }
                if table.has(READ, k, signal) {
                    self.reads[k][signal] = readers[k] as u16;
                }
            }
            let at = BF_BYTES * signal + USE_BYTES * used;
            let count = schedule[at + 3] as usize;
            let records = schedule[at + BF_BYTES..].chunks_exact(USE_BYTES);
            for (position, record) in self.uses[used..next].iter_mut().zip(records) {
                *position = (base + record[BEFORE_ELEMENT] as usize) as u16;
            }
            self.carried[signal] = base as u16;
            self.store[base..base + count].fill(table.defaults[signal]);
            used = next;
            base += count;
        }
        self.held = self.carried;
        self.open();
        Ok(())
    }

    fn is_fit(&self) -> bool {
        let firsts_fit = |firsts: &[[u16; MOST_SIGNALS]; MOST_TASKS]| {
            firsts
                .iter()
                .zip(self.counts)
                .all(|(row, count)| count <= MOST_USES as u16 && in_uses(row, count))
        };
        self.loaded == 1
            && (1..=LONGEST as u16).contains(&self.hyper)
            && self.tick < self.hyper
            && firsts_fit(&self.reads)
            && firsts_fit(&self.writes)
            && in_block(&self.uses)
            && in_block(&self.carried)
            && in_block(&self.held)
    }

    /// The task's instance at this tick, if it is so far into its period that the test holds.
    fn instance(&self, task: usize, test: impl Fn(u16) -> bool) -> Option<usize> {
        let period = self.periods[task];
        if period == 0 || !test(self.tick % period) {
            return None;
        }
        let i = self.tick / period;
        (i < self.counts[task]).then_some(i as usize)
    }

    /// A fit state has the use, and its position, inside their lists.
    fn position(&self, first: u16, instance: usize) -> usize {
        self.uses[first as usize + instance] as usize
    }

    fn publish(&mut self) {
        for task in 0..MOST_TASKS {
            if let Some(i) = self.instance(task, |into| into + 1 == self.ends[task]) {
                for signal in 0..MOST_SIGNALS {
                    let first = self.writes[task][signal];
                    if first != NONE {
                        self.held[signal] = self.position(first, i) as u16;
                    }
                }
            }
        }
    }

    fn open(&mut self) {
        for task in 0..MOST_TASKS {
            if let Some(i) = self.instance(task, |into| into == self.starts[task]) {
                for signal in 0..MOST_SIGNALS {
                    let first = self.writes[task][signal];
                    if first != NONE {
                        self.store[self.position(first, i)] = self.defaults[signal];
                    }
                }
            }
        }
    }

    fn carry(&mut self) {
        for signal in 0..MOST_SIGNALS {
            self.store[self.carried[signal] as usize] = self.store[self.held[signal] as usize];
        }
        self.held = self.carried;
    }

    #[inline(never)]
    pub fn step(&mut self) -> Result<(), Refused> {
        if !self.is_fit() {
            return Err(Refused(25, 0));
        }
        self.publish();
        self.tick += 1;
        if self.hyper <= self.tick {
            self.carry();
            self.tick = 0;
        }
        self.open();
        Ok(())
    }

    /// Where the task has the signal now.
    fn place(
        &self,
        firsts: &[[u16; MOST_SIGNALS]; MOST_TASKS],
        task: usize,
        signal: usize,
    ) -> Result<usize, Refused> {
        if !self.is_fit() {
            return Err(Refused(25, 0));
        }
        let first = *firsts
            .get(task)
            .and_then(|row| row.get(signal))
            .ok_or(Refused(23, 0))?;
        if first == NONE {
            return Err(Refused(23, 0));
        }
        Ok(self.position(first, self.inside(task)?))
    }

    /// The task's instance that is inside its window now.
    #[inline(never)]
    pub fn open_instance(&self, task: usize) -> Result<u16, Refused> {
        if !self.is_fit() {
            return Err(Refused(25, 0));
        }
        if self.counts.get(task).is_none_or(|&count| count == 0) {
            return Err(Refused(23, 0));
        }
        self.inside(task).map(|i| i as u16)
    }

    fn inside(&self, task: usize) -> Result<usize, Refused> {
        let inside = |into| self.starts[task] <= into && into < self.ends[task];
        self.instance(task, inside).ok_or(Refused(24, 0))
    }

    #[inline(never)]
    pub fn read(&self, task: usize, signal: usize) -> Result<u32, Refused> {
        Ok(self.store[self.place(&self.reads, task, signal)?])
    }

    #[inline(never)]
    pub fn write(&mut self, task: usize, signal: usize, word: u32) -> Result<(), Refused> {
        let place = self.place(&self.writes, task, signal)?;
        self.store[place] = word;
        Ok(())
    }
}
