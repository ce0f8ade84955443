//! The plan and the live list.

use crate::lives::{lives_of, Live};
use crate::schedule::{follow, schedule_bytes, SignalSchedule, MAX_COUNT, MAX_ELEMENTS};
use crate::table::{refuse, Refusal, Table};

/// One record of the lent live list.
#[derive(Clone, Copy, Debug, PartialEq, Eq)]
pub struct LiveRecord {
    pub task: u8,
    pub instance: u16,
    pub from: u32,
    pub until: u32,
    pub element: u8,
}

/// Each value gets the lowest element in which no value already placed is still live at its opening.
pub fn planned_elements(lives: &[Live]) -> Vec<usize> {
    let mut elements = vec![0];
    for live in &lives[1..] {
        let taken = |element: usize| {
            elements
                .iter()
                .zip(lives)
                .any(|(placed, before)| *placed == element && before.at(live.from))
        };
        let lowest = (0..)
            .find(|element| !taken(*element))
            .expect("elements never run out");
        elements.push(lowest);
    }
    elements
}

pub fn count_of(elements: &[usize]) -> usize {
    elements
        .iter()
        .max()
        .expect("the carried value is always there")
        + 1
}

pub fn plan_schedule(table: &Table) -> Result<Vec<SignalSchedule>, Refusal> {
    let mut schedule = Vec::new();
    for signal in 0..table.defaults.len() {
        let lives = lives_of(table, signal);
        let elements = planned_elements(&lives.lives);
        let count = count_of(&elements);
        if count > MAX_COUNT {
            return refuse(12, signal);
        }
        schedule.push(follow(&lives, &elements, count));
    }
    if schedule
        .iter()
        .map(|part| part.count as usize)
        .sum::<usize>()
        > MAX_ELEMENTS
    {
        return refuse(13, 0);
    }
    Ok(schedule)
}

/// Writes the schedule at the front of the buffer; gives the bytes planned.
pub fn plan(table: &Table, buffer: &mut [u8]) -> Result<usize, Refusal> {
    let bytes = schedule_bytes(&plan_schedule(table)?);
    if bytes.len() > buffer.len() {
        return refuse(14, bytes.len());
    }
    buffer[..bytes.len()].copy_from_slice(&bytes);
    Ok(bytes.len())
}

/// Fills the live list of one signal; gives the records filled.
pub fn live_list(table: &Table, signal: u64, list: &mut [LiveRecord]) -> Result<usize, Refusal> {
    if signal >= table.defaults.len() as u64 {
        return refuse(23, 0);
    }
    let lives = lives_of(table, signal as usize).lives;
    let elements = planned_elements(&lives);
    if count_of(&elements) > MAX_COUNT {
        return refuse(12, signal as usize);
    }
    if lives.len() > list.len() {
        return refuse(14, lives.len());
    }
    for (index, live) in lives.iter().enumerate() {
        list[index] = live_record(live, elements[index]);
    }
    Ok(lives.len())
}

fn live_record(live: &Live, element: usize) -> LiveRecord {
    let (task, instance) = match live.value {
        None => (255, 0),
        Some(writer) => (writer.task as u8, writer.number as u16),
    };
    LiveRecord {
        task,
        instance,
        from: live.from,
        until: live.until,
        element: element as u8,
    }
}
