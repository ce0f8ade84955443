//! Other schedules for a table: passing ones, and ones with faults.

use crate::lives::{lives_of, Live, SignalLives};
use crate::plan::{count_of, planned_elements};
use crate::random::{cut, damaged};
use crate::rng::Rng;
use crate::schedule::{follow, schedule_bytes, SignalSchedule, MAX_COUNT, MAX_ELEMENTS};
use crate::table::Table;

/// Each value in any element of `count` that no value already placed and still live has.
fn any_elements(rng: &mut Rng, lives: &[Live], count: usize) -> Vec<usize> {
    let mut elements = vec![0];
    for live in &lives[1..] {
        let taken: Vec<usize> = elements
            .iter()
            .zip(lives)
            .filter(|(_, before)| before.at(live.from))
            .map(|(element, _)| *element)
            .collect();
        let free: Vec<usize> = (0..count)
            .filter(|element| !taken.contains(element))
            .collect();
        elements.push(rng.pick(&free));
    }
    elements
}

/// A passing schedule: other elements, larger counts, spare counts; nothing when the plan is refused.
pub fn passing(rng: &mut Rng, table: &Table) -> Option<Vec<SignalSchedule>> {
    let lives: Vec<_> = (0..table.defaults.len())
        .map(|signal| lives_of(table, signal))
        .collect();
    let mut counts: Vec<usize> = lives
        .iter()
        .map(|lives| count_of(&planned_elements(&lives.lives)))
        .collect();
    let mut spare = MAX_ELEMENTS.checked_sub(counts.iter().sum())?;
    for count in &mut counts {
        if rng.one_in(2) {
            let most = spare.min(MAX_COUNT - *count);
            let more = if rng.one_in(4) {
                most
            } else {
                rng.below(most.min(3) + 1)
            };
            *count += more;
            spare -= more;
        }
    }
    let part = |(lives, count): (&SignalLives, &usize)| {
        follow(lives, &any_elements(rng, &lives.lives, *count), *count)
    };
    Some(lives.iter().zip(&counts).map(part).collect())
}

/// A schedule for `check`: passing ones and every kind of fault, often two at once.
pub fn variant(rng: &mut Rng, table: &Table, plan: &[SignalSchedule]) -> Vec<u8> {
    let mut schedule = plan.to_vec();
    if rng.one_in(2) {
        schedule = passing(rng, table).unwrap_or(schedule);
    }
    for _ in 0..rng.pick(&[0, 1, 1, 1, 2, 2]) {
        change(rng, table, &mut schedule);
    }
    let bytes = schedule_bytes(&schedule);
    match rng.below(10) {
        0 => cut(rng, bytes),
        1 => damaged(rng, bytes),
        2 => [
            bytes,
            rng.pick(&[b"\x00".to_vec(), b"EN".to_vec(), b"BF\x00\x01".to_vec()]),
        ]
        .concat(),
        _ => bytes,
    }
}

/// Raises the counts from the last signal on until they sum to `sum` or are all 32.
pub fn spread(schedule: &mut [SignalSchedule], sum: usize) {
    let mut left = sum.saturating_sub(schedule.iter().map(|part| part.count as usize).sum());
    for part in schedule.iter_mut().rev() {
        let more = left.min(MAX_COUNT - part.count as usize);
        part.count += more as u8;
        left -= more;
    }
}

/// Counts that sum above 256, for a table of nine signals or more; sometimes a clash beside, which 20 precedes.
pub fn overfull(rng: &mut Rng, table: &Table) -> Option<Vec<u8>> {
    let mut schedule = passing(rng, table)?;
    let most = (MAX_COUNT * schedule.len()) as u32;
    let any = rng.between(MAX_ELEMENTS as u32 + 1, most);
    spread(&mut schedule, rng.pick(&[MAX_ELEMENTS + 1, any as usize]));
    if rng.one_in(3) {
        let signal = rng.below(schedule.len());
        move_value(rng, table, signal, &mut schedule[signal]);
    }
    Some(schedule_bytes(&schedule))
}

/// One change of counts or elements.
fn change(rng: &mut Rng, table: &Table, schedule: &mut Vec<SignalSchedule>) {
    if schedule.is_empty() {
        return;
    }
    let signal = rng.below(schedule.len());
    let part = &mut schedule[signal];
    match rng.below(8) {
        0 => part.count = rng.pick(&[0, 1, 2, 31, 32, 33, 255]),
        1 => schedule.iter_mut().for_each(|part| part.count = 32),
        2 => {
            let element = rng.pick(&[part.count, part.count.wrapping_add(1), 255]);
            any_element(rng, part, element);
        }
        3 | 4 => {
            let element = rng.below(part.count as usize) as u8;
            if !part.readers.is_empty() {
                let place = rng.below(part.readers.len());
                part.readers[place].1 = element;
            }
        }
        _ => move_value(rng, table, signal, part),
    }
}

fn any_element(rng: &mut Rng, part: &mut SignalSchedule, element: u8) {
    let list = if rng.one_in(2) {
        &mut part.writers
    } else {
        &mut part.readers
    };
    if !list.is_empty() {
        let place = rng.below(list.len());
        list[place].1 = element;
    }
}

/// One value elsewhere with all its readers, so that only a clash can follow.
pub fn move_value(rng: &mut Rng, table: &Table, signal: usize, part: &mut SignalSchedule) {
    if part.writers.is_empty() {
        return;
    }
    let element = rng.below(part.count as usize) as u8;
    let place = rng.below(part.writers.len());
    move_to(table, signal, part, place, element);
}

/// The value of the writer at `place` into `element`, its readers with it.
pub fn move_to(table: &Table, signal: usize, part: &mut SignalSchedule, place: usize, element: u8) {
    part.writers[place].1 = element;
    for (record, (_, value)) in part
        .readers
        .iter_mut()
        .zip(&lives_of(table, signal).readers)
    {
        if *value == Some(part.writers[place].0) {
            record.1 = element;
        }
    }
}
