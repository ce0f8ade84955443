//! The check of a schedule made elsewhere: 15 to 22, in order.

use crate::lives::{lives_of, Live, SignalLives};
use crate::schedule::{fixed_bf, fixed_instance, SignalSchedule, MAX_COUNT, MAX_ELEMENTS};
use crate::table::{refuse, Access, Instance, Refusal, Table};

/// One WI or RI as read, with its place.
struct Placed {
    instance: Instance,
    element: u8,
    place: usize,
}

struct Part {
    count: u8,
    writers: Vec<Placed>,
    readers: Vec<Placed>,
}

/// Passes with the schedule as numbers.
pub fn check(table: &Table, bytes: &[u8]) -> Result<Vec<SignalSchedule>, Refusal> {
    let (parts, end) = read_schedule(table, bytes)?;
    if end < bytes.len() {
        return refuse(19, end);
    }
    if parts.iter().map(|part| part.count as usize).sum::<usize>() > MAX_ELEMENTS {
        return refuse(20, 0);
    }
    let lives: Vec<SignalLives> = (0..parts.len())
        .map(|signal| lives_of(table, signal))
        .collect();
    for (part, lives) in parts.iter().zip(&lives) {
        readers_follow(part, lives)?;
    }
    for (part, lives) in parts.iter().zip(&lives) {
        no_clash(part, lives)?;
    }
    Ok(parts.into_iter().map(numbers).collect())
}

fn numbers(part: Part) -> SignalSchedule {
    let plain = |list: Vec<Placed>| {
        list.into_iter()
            .map(|record| (record.instance, record.element))
            .collect()
    };
    SignalSchedule {
        count: part.count,
        writers: plain(part.writers),
        readers: plain(part.readers),
    }
}

/// The last byte of the record at the place, after `whole` and `fixed bytes`.
fn record(bytes: &[u8], place: &mut usize, fixed: &[u8]) -> Result<u8, Refusal> {
    let size = fixed.len() + 1;
    if *place + size > bytes.len() {
        return refuse(15, *place);
    }
    if &bytes[*place..*place + size - 1] != fixed {
        return refuse(16, *place);
    }
    *place += size;
    Ok(bytes[*place - 1])
}

fn read_schedule(table: &Table, bytes: &[u8]) -> Result<(Vec<Part>, usize), Refusal> {
    let mut place = 0;
    let mut parts = Vec::new();
    for signal in 0..table.defaults.len() {
        let start = place;
        let count = record(bytes, &mut place, &fixed_bf(signal))?;
        if count < 1 || count as usize > MAX_COUNT {
            return refuse(17, start);
        }
        let writers = read_instances(table, bytes, &mut place, signal, Access::Write, count)?;
        let readers = read_instances(table, bytes, &mut place, signal, Access::Read, count)?;
        parts.push(Part {
            count,
            writers,
            readers,
        });
    }
    if place + 2 > bytes.len() {
        return refuse(15, place);
    }
    if &bytes[place..place + 2] != b"EN" {
        return refuse(16, place);
    }
    Ok((parts, place + 2))
}

fn read_instances(
    table: &Table,
    bytes: &[u8],
    place: &mut usize,
    signal: usize,
    access: Access,
    count: u8,
) -> Result<Vec<Placed>, Refusal> {
    let mark = if access == Access::Write {
        b"WI"
    } else {
        b"RI"
    };
    let mut list = Vec::new();
    for instance in table.users(signal, access) {
        let start = *place;
        let element = record(bytes, place, &fixed_instance(mark, signal, instance))?;
        if element >= count {
            return refuse(18, start);
        }
        list.push(Placed {
            instance,
            element,
            place: start,
        });
    }
    Ok(list)
}

/// 21: each reader has the element of the value it is bound to; the carried one is in element 0.
fn readers_follow(part: &Part, lives: &SignalLives) -> Result<(), Refusal> {
    for (reader, (instance, value)) in part.readers.iter().zip(&lives.readers) {
        assert_eq!(reader.instance, *instance);
        let element = match value {
            None => 0,
            Some(writer) => {
                part.writers
                    .iter()
                    .find(|wi| wi.instance == *writer)
                    .expect("its WI")
                    .element
            }
        };
        if reader.element != element {
            return refuse(21, reader.place);
        }
    }
    Ok(())
}

/// 22: each WI against the carried value and every earlier WI.
fn no_clash(part: &Part, lives: &SignalLives) -> Result<(), Refusal> {
    let carried = (0, lives.lives[0]);
    let mut earlier: Vec<(u8, Live)> = vec![carried];
    for wi in &part.writers {
        let live = lives.lives[lives.index(Some(wi.instance))];
        if earlier
            .iter()
            .any(|(element, before)| *element == wi.element && before.meets(&live))
        {
            return refuse(22, wi.place);
        }
        earlier.push((wi.element, live));
    }
    Ok(())
}
