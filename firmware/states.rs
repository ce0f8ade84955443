//! Random states: fit ones that no loading leads to, and each way in which one is not fit.

use crate::random::word;
use crate::rng::Rng;
use crate::state::{Fault, State, LONGEST, MOST_USES, NONE, WORDS};

/// A fit state, whose numbers are often at their bounds.
pub fn fit(rng: &mut Rng) -> State {
    let mut state = State::new();
    state.loaded = 1;
    state.hyper = rng.pick(&[1, 2, 7, 12, 60, 9_999, LONGEST]);
    state.tick = if rng.one_in(3) { state.hyper - 1 } else { rng.below(state.hyper as usize) as u16 };
    for task in 0..16 {
        window(rng, &mut state, task);
        for signal in 0..32 {
            state.reads[task][signal] = first(rng, state.counts[task]);
            state.writes[task][signal] = first(rng, state.counts[task]);
        }
    }
    // few words, so that positions coincide, or all of them
    let words = rng.pick(&[3, WORDS as usize]);
    let positions = [&mut state.uses[..], &mut state.carried[..], &mut state.held[..]];
    positions.into_iter().flatten().for_each(|position| *position = rng.below(words) as u16);
    state.uses[rng.below(4_096)] = WORDS - 1;
    state.defaults.iter_mut().chain(&mut state.store).for_each(|kept| *kept = word(rng));
    state.unused = rng.next() as u16;
    state
}

/// Often a window that opens, closes or is open about this tick; often one that no table has.
fn window(rng: &mut Rng, state: &mut State, task: usize) {
    state.periods[task] = rng.pick(&[0, 1, 2, 5, 6, state.hyper, 65_535]);
    let into = state.tick.checked_rem(state.periods[task]).unwrap_or(0);
    let any = rng.next() as u16;
    state.starts[task] = rng.pick(&[0, into, into + 1, state.periods[task], any]);
    state.ends[task] = rng.pick(&[0, into, into + 1, into + 2, state.periods[task], any]);
    let instance = state.tick.checked_div(state.periods[task]).unwrap_or(0);
    state.counts[task] = rng.pick(&[0, 1, instance, instance + 1, 4_000, MOST_USES]).min(MOST_USES);
}

/// No access, or an index from which so many uses are inside the list, often the last one.
fn first(rng: &mut Rng, count: u16) -> u16 {
    let last = MOST_USES - count.max(1);
    match rng.below(4) {
        0 => last,
        1 => rng.below(last as usize + 1) as u16,
        _ => NONE,
    }
}

/// A way in which a state is not fit: its name, the one fault that it has, and how a fit state gets it.
pub type Way = (&'static str, Fault, fn(&mut Rng, &mut State));

pub const WAYS: [Way; 15] = [
    ("not loaded", Fault::NotLoaded, |_, state| state.loaded = 0),
    ("marked with another number", Fault::NotLoaded, |rng, state| state.loaded = rng.pick(&[2, 3, 5, 255, 256, 257, 65_535])),
    ("hyper above 10,000", Fault::Hyper, |rng, state| state.hyper = rng.pick(&[LONGEST + 1, 65_535])),
    ("tick at hyper", Fault::Tick, |_, state| state.tick = state.hyper),
    ("tick past hyper", Fault::Tick, |rng, state| state.tick = rng.pick(&[state.hyper + 1, 65_535])),
    ("a count above 4,096", Fault::Count, |rng, state| {
        let task = alone(rng, state);
        state.counts[task] = rng.pick(&[MOST_USES + 1, 65_535]);
    }),
    ("a read index whose uses end past the list", Fault::ReadIndex, |rng, state| {
        let (task, first) = past(rng, state);
        state.reads[task][rng.below(32)] = first;
    }),
    ("a write index whose uses end past the list", Fault::WriteIndex, |rng, state| {
        let (task, first) = past(rng, state);
        state.writes[task][rng.below(32)] = first;
    }),
    ("a read index past the list, the count 0", Fault::ReadIndex, |rng, state| {
        let task = alone(rng, state);
        state.reads[task][rng.below(32)] = rng.pick(&[MOST_USES, MOST_USES + 1, NONE - 1]);
    }),
    ("a write index past the list, the count 0", Fault::WriteIndex, |rng, state| {
        let task = alone(rng, state);
        state.writes[task][rng.below(32)] = rng.pick(&[MOST_USES, MOST_USES + 1, NONE - 1]);
    }),
    ("a use past the block", Fault::Use, |rng, state| state.uses[rng.below(4_096)] = beyond(rng)),
    ("the last use past the block", Fault::Use, |rng, state| state.uses[4_095] = beyond(rng)),
    ("a carried position past the block", Fault::Carried, |rng, state| state.carried[rng.below(32)] = beyond(rng)),
    ("a held position past the block", Fault::Held, |rng, state| state.held[rng.below(32)] = beyond(rng)),
    ("hyper 0", Fault::Hyper, |_, state| state.hyper = 0),
];

fn beyond(rng: &mut Rng) -> u16 {
    rng.pick(&[WORDS, WORDS + 1, 65_535])
}

/// A task that is left without instances and accesses.
fn alone(rng: &mut Rng, state: &mut State) -> usize {
    let task = rng.below(16);
    state.counts[task] = 0;
    state.reads[task] = [NONE; 32];
    state.writes[task] = [NONE; 32];
    task
}

/// A task with some instances and no access, and an index from which one use is past the list, or all are.
fn past(rng: &mut Rng, state: &mut State) -> (usize, u16) {
    let task = alone(rng, state);
    let count = rng.pick(&[1, 2, 100, MOST_USES]);
    state.counts[task] = count;
    (task, rng.pick(&[MOST_USES - count + 1, MOST_USES, NONE - 1]))
}

/// One number anywhere, at a bound of what it may be: fit or not.
pub fn nudge(rng: &mut Rng, state: &mut State) {
    let at = rng.below(5_252);
    let number: u16 = rng.pick(&[0, 1, 2, 255, 256, 4_095, 4_096, 4_097, 10_000, 10_001, 65_534, 65_535]);
    let numbers = unsafe { std::slice::from_raw_parts_mut((state as *mut State).cast::<u16>(), 5_252) };
    numbers[at] = number;
}
