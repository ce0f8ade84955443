//! Memory to lend: bytes of its own block, with guard bytes on both sides that no call may write.

use std::alloc::{alloc, dealloc, Layout};
use std::slice::from_raw_parts_mut;
use std::sync::atomic::{AtomicUsize, Ordering};

const GUARD: u8 = 0xC3;

/// Guard bytes on each side, a multiple of every alignment. With none, whatever watches the heap sees the first byte beyond.
static GUARDS: AtomicUsize = AtomicUsize::new(64);

pub fn without_guards() {
    GUARDS.store(0, Ordering::Relaxed);
}

pub struct Lent {
    block: *mut u8,
    guards: usize,
    length: usize,
}

impl Lent {
    /// This many bytes, each filled with the same.
    pub fn filled(length: usize, byte: u8) -> Lent {
        let guards = GUARDS.load(Ordering::Relaxed);
        let lent = Lent { block: unsafe { alloc(layout(guards, length)) }, guards, length };
        assert!(!lent.block.is_null(), "no memory");
        lent.all().fill(GUARD);
        lent.all()[guards..guards + length].fill(byte);
        lent
    }

    pub fn of(bytes: &[u8]) -> Lent {
        let mut lent = Lent::filled(bytes.len(), 0);
        lent.bytes().copy_from_slice(bytes);
        lent
    }

    #[allow(clippy::mut_from_ref)] // the block is this value's own
    fn all(&self) -> &mut [u8] {
        unsafe { from_raw_parts_mut(self.block, 2 * self.guards + self.length) }
    }

    pub fn bytes(&mut self) -> &mut [u8] {
        &mut self.all()[self.guards..self.guards + self.length]
    }

    /// What a call is handed; never null, also where no byte is lent.
    pub fn pointer<T>(&mut self) -> *mut T {
        unsafe { self.block.add(self.guards).cast() }
    }

    /// What a call left there.
    pub fn get<T: Copy>(&mut self) -> T {
        assert!(std::mem::size_of::<T>() <= self.length && self.is_guarded(), "a guard byte is changed");
        unsafe { self.pointer::<T>().read() }
    }

    pub fn is_guarded(&self) -> bool {
        let all = self.all();
        let (before, after) = (&all[..self.guards], &all[self.guards + self.length..]);
        before.iter().chain(after).all(|byte| *byte == GUARD)
    }
}

fn layout(guards: usize, length: usize) -> Layout {
    Layout::from_size_align((2 * guards + length).max(1), 16).expect("a layout")
}

impl Drop for Lent {
    fn drop(&mut self) {
        unsafe { dealloc(self.block, layout(self.guards, self.length)) };
    }
}
