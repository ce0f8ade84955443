//! The proved library, as Rust calls it: the number of an answer and its place. A machine and a live list are laid out in memory as the plain ones are.

use crate::plain::{LiveValue, Machine};

mod c {
    use super::LiveValue;

    extern "C" {
        pub fn press_table(table: *const u8, length: usize, place: *mut usize) -> u8;
        pub fn press_plan(
            table: *const u8,
            length: usize,
            out: *mut u8,
            room: usize,
            place: *mut usize,
        ) -> u8;
        pub fn press_check(
            table: *const u8,
            length: usize,
            schedule: *const u8,
            schedule_length: usize,
            place: *mut usize,
        ) -> u8;
        pub fn press_live(
            table: *const u8,
            length: usize,
            signal: usize,
            list: *mut LiveValue,
            room: usize,
            place: *mut usize,
        ) -> u8;
        pub fn press_lists_new(numbers: *mut u16, defaults: *mut u32, store: *mut u32);
        pub fn press_lists_load(
            numbers: *mut u16,
            defaults: *mut u32,
            store: *mut u32,
            table: *const u8,
            length: usize,
            schedule: *const u8,
            schedule_length: usize,
            place: *mut usize,
        ) -> u8;
        pub fn press_lists_step(numbers: *mut u16, defaults: *const u32, store: *mut u32) -> u8;
        pub fn press_lists_read(
            numbers: *const u16,
            store: *const u32,
            task: usize,
            signal: usize,
            word: *mut u32,
        ) -> u8;
        pub fn press_lists_write(
            numbers: *const u16,
            store: *mut u32,
            task: usize,
            signal: usize,
            word: u32,
        ) -> u8;
        pub fn press_lists_open(numbers: *const u16, task: usize, instance: *mut u16) -> u8;
    }
}

pub type Told = (u8, usize);

fn told(call: impl FnOnce(&mut usize) -> u8) -> Told {
    let mut place = 0;
    (call(&mut place), place)
}

pub fn table(table: &[u8]) -> Told {
    told(|place| unsafe { c::press_table(table.as_ptr(), table.len(), place) })
}

pub fn plan(table: &[u8], out: &mut [u8]) -> Told {
    told(|place| unsafe {
        c::press_plan(
            table.as_ptr(),
            table.len(),
            out.as_mut_ptr(),
            out.len(),
            place,
        )
    })
}

pub fn check(table: &[u8], schedule: &[u8]) -> Told {
    told(|place| unsafe {
        c::press_check(
            table.as_ptr(),
            table.len(),
            schedule.as_ptr(),
            schedule.len(),
            place,
        )
    })
}

pub fn live(table: &[u8], signal: usize, list: &mut [LiveValue]) -> Told {
    told(|place| unsafe {
        c::press_live(
            table.as_ptr(),
            table.len(),
            signal,
            list.as_mut_ptr(),
            list.len(),
            place,
        )
    })
}

/// The three lists of a machine.
fn lists(machine: &mut Machine) -> (*mut u16, *mut u32, *mut u32) {
    let all: *mut Machine = machine;
    unsafe {
        (
            all.cast(),
            (&raw mut (*all).defaults).cast(),
            (&raw mut (*all).store).cast(),
        )
    }
}

pub fn new(machine: &mut Machine) {
    let (numbers, defaults, store) = lists(machine);
    unsafe { c::press_lists_new(numbers, defaults, store) }
    machine.unused = 0;
}

pub fn load(machine: &mut Machine, table: &[u8], schedule: &[u8]) -> Told {
    let (numbers, defaults, store) = lists(machine);
    told(|place| unsafe {
        c::press_lists_load(
            numbers,
            defaults,
            store,
            table.as_ptr(),
            table.len(),
            schedule.as_ptr(),
            schedule.len(),
            place,
        )
    })
}

pub fn step(machine: &mut Machine) -> u8 {
    let (numbers, defaults, store) = lists(machine);
    unsafe { c::press_lists_step(numbers, defaults, store) }
}

fn numbers(machine: &Machine) -> *const u16 {
    (machine as *const Machine).cast()
}

/// The number and the word.
pub fn read(machine: &Machine, task: usize, signal: usize) -> (u8, u32) {
    let mut word = 0xAAAA_AAAA;
    let store = machine.store.as_ptr();
    let number = unsafe { c::press_lists_read(numbers(machine), store, task, signal, &mut word) };
    (number, word)
}

pub fn write(machine: &mut Machine, task: usize, signal: usize, word: u32) -> u8 {
    let (numbers, _, store) = lists(machine);
    unsafe { c::press_lists_write(numbers, store, task, signal, word) }
}

/// The number and the instance.
pub fn open_instance(machine: &Machine, task: usize) -> (u8, u16) {
    let mut instance = 0xAAAA;
    let number = unsafe { c::press_lists_open(numbers(machine), task, &mut instance) };
    (number, instance)
}
