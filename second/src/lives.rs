//! Publications, bindings and lives of one signal, straight from the words of document 01.

use crate::table::{Access, Instance, Table};

/// A value of a signal: that of a writer instance, or the carried one (`None`).
pub type Value = Option<Instance>;

#[derive(Clone, Copy, Debug, PartialEq, Eq)]
pub struct Live {
    pub value: Value,
    pub from: u32,
    pub until: u32,
}

impl Live {
    pub fn at(&self, tick: u32) -> bool {
        self.from <= tick && tick < self.until
    }

    pub fn meets(&self, other: &Live) -> bool {
        self.from.max(other.from) < self.until.min(other.until)
    }
}

pub struct SignalLives {
    /// The carried value first, then writer instances by opening tick, then task.
    pub lives: Vec<Live>,
    /// Reader instances by task, then instance, each with the value it is bound to.
    pub readers: Vec<(Instance, Value)>,
}

impl SignalLives {
    pub fn index(&self, value: Value) -> usize {
        self.lives
            .iter()
            .position(|live| live.value == value)
            .expect("a value of this signal")
    }
}

/// Who publishes at each tick 0 to H; an accepted table has at most one.
fn publishers(table: &Table, signal: usize) -> Vec<Value> {
    let mut at = vec![None; table.hyper as usize + 1];
    for writer in table.users(signal, Access::Write) {
        at[table.closing(writer) as usize] = Some(writer);
    }
    at
}

/// The latest value published at or before the opening, searched backwards.
fn bound(publishers: &[Value], opening: u32) -> Value {
    (0..=opening as usize)
        .rev()
        .find_map(|tick| publishers[tick])
}

/// The first publication after a tick; H where none exists.
fn next_publication(publishers: &[Value], after: u32) -> u32 {
    let hyper = publishers.len() - 1;
    (after as usize + 1..=hyper)
        .find(|tick| publishers[*tick].is_some())
        .unwrap_or(hyper) as u32
}

fn writers_in_plan_order(table: &Table, signal: usize) -> Vec<Instance> {
    let mut writers = table.users(signal, Access::Write);
    writers.sort_by_key(|writer| (table.opening(*writer), writer.task));
    writers
}

pub fn lives_of(table: &Table, signal: usize) -> SignalLives {
    let publishers = publishers(table, signal);
    let readers: Vec<(Instance, Value)> = table
        .users(signal, Access::Read)
        .into_iter()
        .map(|reader| (reader, bound(&publishers, table.opening(reader))))
        .collect();
    let live = |value: Value, from: u32, closing: u32| {
        let held = readers
            .iter()
            .filter(|reader| reader.1 == value)
            .map(|reader| table.closing(reader.0))
            .max();
        let until = next_publication(&publishers, closing).max(held.unwrap_or(0));
        Live { value, from, until }
    };
    let mut lives = vec![live(None, 0, 0)];
    for writer in writers_in_plan_order(table, signal) {
        lives.push(live(
            Some(writer),
            table.opening(writer),
            table.closing(writer),
        ));
    }
    SignalLives { lives, readers }
}
