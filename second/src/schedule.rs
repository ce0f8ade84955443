//! A schedule as numbers, and its bytes.

use crate::lives::SignalLives;
use crate::table::Instance;

pub const MAX_COUNT: usize = 32;
pub const MAX_ELEMENTS: usize = 256;

/// The part of one signal; writers and readers by task, then instance.
#[derive(Clone, Debug)]
pub struct SignalSchedule {
    pub count: u8,
    pub writers: Vec<(Instance, u8)>,
    pub readers: Vec<(Instance, u8)>,
}

/// Elements of the values, as `lives` orders them, turned into records; readers follow their values.
pub fn follow(lives: &SignalLives, elements: &[usize], count: usize) -> SignalSchedule {
    let mut writers: Vec<(Instance, u8)> = Vec::new();
    for (live, element) in lives.lives.iter().zip(elements) {
        writers.extend(live.value.map(|writer| (writer, *element as u8)));
    }
    writers.sort();
    let readers = lives
        .readers
        .iter()
        .map(|(reader, value)| (*reader, elements[lives.index(*value)] as u8))
        .collect();
    SignalSchedule {
        count: count as u8,
        writers,
        readers,
    }
}

pub fn fixed_bf(signal: usize) -> Vec<u8> {
    vec![b'B', b'F', signal as u8]
}

pub fn fixed_instance(mark: &[u8; 2], signal: usize, instance: Instance) -> Vec<u8> {
    let number = (instance.number as u16).to_be_bytes();
    vec![
        mark[0],
        mark[1],
        signal as u8,
        instance.task as u8,
        number[0],
        number[1],
    ]
}

pub fn schedule_bytes(schedule: &[SignalSchedule]) -> Vec<u8> {
    let mut bytes = Vec::new();
    for (signal, part) in schedule.iter().enumerate() {
        bytes.extend(fixed_bf(signal));
        bytes.push(part.count);
        for (mark, instances) in [(b"WI", &part.writers), (b"RI", &part.readers)] {
            for (instance, element) in instances {
                bytes.extend(fixed_instance(mark, signal, *instance));
                bytes.push(*element);
            }
        }
    }
    bytes.extend(b"EN");
    bytes
}
