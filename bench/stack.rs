//! How deep a call reaches: the stack below is painted, and after the call the lowest byte that changed is looked for.

use crate::tables::table;
use crate::{ours, plain, planned, UNTOUCHED};

const PAINTED: usize = 1 << 20;
const PAINT: u8 = 0xA5;

/// Left unpainted for the frames of `depth` and of `paint` itself: no call is said to reach less.
const LEAST: usize = 512;

#[inline(never)]
fn paint(top: usize) {
    for at in top - PAINTED..top - LEAST {
        unsafe { (at as *mut u8).write_volatile(PAINT) };
    }
}

#[inline(never)]
fn reached(top: usize) -> usize {
    let lowest =
        (top - PAINTED..top).find(|&at| unsafe { (at as *const u8).read_volatile() } != PAINT);
    top - lowest.expect("the call left no trace")
}

/// Measured from a local of the caller's frame.
#[inline(never)]
fn depth(call: &mut dyn FnMut()) -> usize {
    let mark = 0u8;
    let top = std::hint::black_box(&mark) as *const u8 as usize;
    paint(top);
    call();
    reached(top)
}

fn depth_of<T>(mut call: impl FnMut() -> T + Send) -> usize {
    std::thread::scope(|scope| {
        let thread = std::thread::Builder::new().stack_size(4 * PAINTED);
        let spawned = thread.spawn_scoped(scope, move || {
            depth(&mut || {
                std::hint::black_box(call());
            })
        });
        spawned.expect("a thread").join().expect("a depth")
    })
}

fn row(call: &str, ours: usize, plain: usize) {
    println!("{call} {ours} {plain}");
}

pub fn rows() {
    let bytes = table("all");
    let schedule = planned(&bytes);
    let mut out = schedule.clone();
    let mut other = schedule.clone();
    row(
        "table",
        depth_of(|| ours::table(&bytes)),
        depth_of(|| plain::Table::read(&bytes).is_ok()),
    );
    row(
        "plan",
        depth_of(|| ours::plan(&bytes, &mut out)),
        depth_of(|| plain::plan(&bytes, &mut other).is_ok()),
    );
    let mut list = [UNTOUCHED; 513];
    let mut listed = [UNTOUCHED; 513];
    row(
        "live",
        depth_of(|| ours::live(&bytes, 0, &mut list)),
        depth_of(|| plain::live(&bytes, 0, &mut listed).is_ok()),
    );
    row(
        "check",
        depth_of(|| ours::check(&bytes, &schedule)),
        depth_of(|| plain::check(&bytes, &schedule).is_ok()),
    );
    let mut one = plain::Machine::new();
    let mut other = plain::Machine::new();
    row(
        "load",
        depth_of(|| ours::load(&mut one, &bytes, &schedule)),
        depth_of(|| other.load(&bytes, &schedule).is_ok()),
    );
    row(
        "step",
        depth_of(|| ours::step(&mut one)),
        depth_of(|| other.step().is_ok()),
    );
    row(
        "read",
        depth_of(|| ours::read(&one, 0, 0)),
        depth_of(|| other.read(0, 0).is_ok()),
    );
    row(
        "write",
        depth_of(|| ours::write(&mut one, 0, 0, 1)),
        depth_of(|| other.write(0, 0, 1).is_ok()),
    );
    row(
        "open",
        depth_of(|| ours::open_instance(&one, 0)),
        depth_of(|| other.open_instance(0).is_ok()),
    );
}
