//! A second look at a schedule, tick by tick and without order: which faults are in it at all.

use crate::lives::Value;
use crate::schedule::{fixed_bf, fixed_instance};
use crate::table::{Access, Instance, Table};

/// What a table says of one signal, found by walking through the ticks.
struct Walk {
    readers: Vec<(Instance, Value)>,
    /// The values live at each tick.
    live: Vec<Vec<Value>>,
}

/// One WI or RI as read: signal, access, instance, element.
type Read = (usize, Access, Instance, u8);

pub struct Judge {
    /// Signal, access or none for BF, the fixed bytes.
    layout: Vec<(usize, Option<(Access, Instance)>, Vec<u8>)>,
    walks: Vec<Walk>,
}

impl Judge {
    pub fn new(table: &Table) -> Judge {
        let mut layout = Vec::new();
        for signal in 0..table.defaults.len() {
            layout.push((signal, None, fixed_bf(signal)));
            for (access, mark) in [(Access::Write, b"WI"), (Access::Read, b"RI")] {
                for user in table.users(signal, access) {
                    layout.push((
                        signal,
                        Some((access, user)),
                        fixed_instance(mark, signal, user),
                    ));
                }
            }
        }
        Judge {
            layout,
            walks: (0..table.defaults.len())
                .map(|signal| walk(table, signal))
                .collect(),
        }
    }

    /// The values live at the fullest tick of each signal.
    pub fn most_live(&self) -> Vec<usize> {
        self.walks
            .iter()
            .map(|walk| walk.live.iter().map(Vec::len).max().unwrap_or(0))
            .collect()
    }

    /// The plan's elements of each signal's writers, placed while walking through the ticks.
    pub fn planned(&self, table: &Table) -> Vec<Vec<(Instance, u8)>> {
        self.walks
            .iter()
            .enumerate()
            .map(|(signal, walk)| place_in_turn(table, signal, walk))
            .collect()
    }

    pub fn size(&self) -> usize {
        self.layout
            .iter()
            .map(|record| record.2.len() + 1)
            .sum::<usize>()
            + 2
    }

    /// The numbers 15 to 22 whose words hold of the bytes; none means the schedule passes.
    pub fn faults(&self, bytes: &[u8]) -> Vec<u32> {
        let mut faults = Vec::new();
        if bytes.len() < self.size() {
            faults.push(15);
        }
        if bytes.len() > self.size() {
            faults.push(19);
        }
        let mut counts = Vec::new();
        let mut elements: Vec<Read> = Vec::new();
        let mut place = 0;
        for (signal, user, fixed) in &self.layout {
            let Some(record) = bytes.get(place..place + fixed.len() + 1) else {
                break;
            };
            place += record.len();
            let last = record[record.len() - 1];
            if record[..record.len() - 1] != fixed[..] {
                faults.push(16);
            }
            match user {
                None => counts.push(last),
                Some((access, instance)) => elements.push((*signal, *access, *instance, last)),
            }
        }
        if bytes
            .get(place..place + 2)
            .is_some_and(|mark| mark != b"EN")
        {
            faults.push(16);
        }
        record_faults(&counts, &elements, &mut faults);
        if bytes.len() >= self.size() {
            self.whole_faults(&counts, &elements, &mut faults);
        }
        faults
    }

    fn whole_faults(&self, counts: &[u8], elements: &[Read], faults: &mut Vec<u32>) {
        if counts.iter().map(|count| *count as u32).sum::<u32>() > 256 {
            faults.push(20);
        }
        for (signal, walk) in self.walks.iter().enumerate() {
            let element = |access: Access, instance: Instance| {
                elements
                    .iter()
                    .find(|r| r.0 == signal && r.1 == access && r.2 == instance)
                    .expect("in the layout")
                    .3
            };
            let of = |value: &Value| value.map_or(0, |writer| element(Access::Write, writer));
            if walk
                .readers
                .iter()
                .any(|(reader, value)| element(Access::Read, *reader) != of(value))
            {
                faults.push(21);
            }
            if walk
                .live
                .iter()
                .any(|values| twice(values.iter().map(of).collect()))
            {
                faults.push(22);
            }
        }
    }
}

fn record_faults(counts: &[u8], elements: &[Read], faults: &mut Vec<u32>) {
    if counts.iter().any(|count| !(1..=32).contains(count)) {
        faults.push(17);
    }
    if elements.iter().any(|record| record.3 >= counts[record.0]) {
        faults.push(18);
    }
}

fn twice(mut elements: Vec<u8>) -> bool {
    elements.sort();
    elements.windows(2).any(|pair| pair[0] == pair[1])
}

fn place_in_turn(table: &Table, signal: usize, walk: &Walk) -> Vec<(Instance, u8)> {
    let writers = table.users(signal, Access::Write);
    let mut placed: Vec<(Value, u8)> = vec![(None, 0)];
    for tick in 0..table.hyper {
        for writer in writers
            .iter()
            .filter(|writer| table.opening(**writer) == tick)
        {
            let live = &walk.live[tick as usize];
            let in_use = |element: &u8| {
                placed
                    .iter()
                    .any(|p| p.1 == *element && live.contains(&p.0))
            };
            let lowest = (0..=255)
                .find(|element| !in_use(element))
                .expect("a free one");
            placed.push((Some(*writer), lowest));
        }
    }
    let mut placed: Vec<(Instance, u8)> = placed
        .into_iter()
        .filter_map(|(value, element)| Some((value?, element)))
        .collect();
    placed.sort();
    placed
}

/// Walks forwards: at each tick publishing, then opening; then what is live is asked of each value.
fn walk(table: &Table, signal: usize) -> Walk {
    let (writers, readers) = (
        table.users(signal, Access::Write),
        table.users(signal, Access::Read),
    );
    let mut standing: Vec<Value> = Vec::new();
    let mut now = None;
    for tick in 0..=table.hyper {
        now = writers
            .iter()
            .find(|writer| table.closing(**writer) == tick)
            .copied()
            .or(now);
        standing.push(now);
    }
    let bound: Vec<(Instance, Value)> = readers
        .iter()
        .map(|reader| (*reader, standing[table.opening(*reader) as usize]))
        .collect();
    let live_at = |value: Value, tick: u32| {
        let open = value
            .is_some_and(|writer| table.opening(writer) <= tick && tick < table.closing(writer));
        let begun = value.is_none_or(|writer| table.opening(writer) <= tick);
        let held = bound
            .iter()
            .any(|(reader, held)| *held == value && table.closing(*reader) > tick);
        open || standing[tick as usize] == value || begun && held
    };
    let mut values: Vec<Value> = vec![None];
    values.extend(writers.iter().map(|writer| Some(*writer)));
    let live = (0..table.hyper)
        .map(|tick| {
            values
                .iter()
                .copied()
                .filter(|v| live_at(*v, tick))
                .collect()
        })
        .collect();
    Walk {
        readers: bound,
        live,
    }
}
