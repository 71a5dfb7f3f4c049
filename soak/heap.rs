//! The memory of the library, which is this program's: allocations are counted, and some of them can be made to fail.
//! Each thread counts its own.

use std::cell::Cell;

/// Which allocations fail from a first one on: `length` of them, each `step` after the last one.
#[derive(Clone, Copy)]
pub struct Fails {
    length: u64,
    step: u64,
}

/// No other one.
pub const ONE: Fails = Fails { length: 1, step: 1 };

/// The next one too.
pub const TWO: Fails = Fails { length: 2, step: 1 };

/// All others too.
pub const ALL: Fails = Fails { length: u64::MAX, step: 1 };

/// Every second one too.
pub const EVERY_SECOND: Fails = Fails { length: u64::MAX, step: 2 };

impl Fails {
    /// Whether the allocation with this number fails if the one numbered `first` is the first. They are counted from 0.
    pub fn has(self, first: u64, number: u64) -> bool {
        number >= first && (number - first) % self.step == 0 && (number - first) / self.step < self.length
    }
}

thread_local! {
    static COUNT: Cell<u64> = const { Cell::new(0) };
    /// The sizes of the allocations so far, mixed into one number.
    static SIZES: Cell<u64> = const { Cell::new(0) };
    /// The first allocation that fails, and which others do.
    static FAILS: Cell<(u64, Fails)> = const { Cell::new((u64::MAX, ONE)) };
    static IS_PLANTED: Cell<bool> = const { Cell::new(false) };
    /// The block for what a device keeps, and whether a device has it.
    static KEPT: Cell<(*mut u8, bool)> = const { Cell::new((std::ptr::null_mut(), false)) };
}

/// The size of an allocation for a device of `crates/exports/src/devices.rt`. It is not counted and does not fail,
/// since the library does not make it.
const KEPT_SIZE: usize = 4 << 20;

/// Counts from 0 again. No allocation fails.
pub fn begin() {
    begin_failing(u64::MAX, ONE);
}

/// Counts from 0 again. The allocation with the number `first` fails, and others as `fails` says.
pub fn begin_failing(first: u64, fails: Fails) {
    COUNT.set(0);
    SIZES.set(0);
    FAILS.set((first, fails));
}

/// The number of allocations, also of those that failed.
pub fn count() -> u64 {
    COUNT.get()
}

/// A number that is the same for the same sizes of the allocations, in order.
pub fn sizes() -> u64 {
    SIZES.get()
}

/// Whether the library gets memory also if the allocation is one that has to fail.
pub fn plant(is_planted: bool) {
    IS_PLANTED.set(is_planted);
}

/// Counts an allocation, and returns whether it fails.
fn fails(size: usize) -> bool {
    let (number, (first, fails)) = (COUNT.get(), FAILS.get());
    COUNT.set(number + 1);
    SIZES.set((SIZES.get().rotate_left(7) ^ size as u64).wrapping_mul(0x9e37_79b9_7f4a_7c15));
    fails.has(first, number) && !IS_PLANTED.get()
}

/// What the library is told: whether there is memory, and where. A pointer that is not null is passed back if there is
/// none.
#[repr(C)]
struct Block {
    is_there: bool,
    start: *mut u8,
}

impl Block {
    fn new(start: *mut u8, otherwise: *mut u8) -> Block {
        Block { is_there: !start.is_null(), start: if start.is_null() { otherwise } else { start } }
    }
}

extern "C" {
    fn malloc(size: usize) -> *mut u8;
    fn realloc(block: *mut u8, size: usize) -> *mut u8;
    fn free(block: *mut u8);
}

/// The block for what a device keeps, if it is free.
unsafe fn kept_block() -> *mut u8 {
    match KEPT.get() {
        (_, true) => std::ptr::null_mut(),
        (block, false) => {
            let block = if block.is_null() { malloc(KEPT_SIZE) } else { block };
            KEPT.set((block, !block.is_null()));
            block
        }
    }
}

#[no_mangle]
unsafe extern "C" fn rattle_alloc(size: usize, align: usize) -> Block {
    if size == KEPT_SIZE {
        return Block::new(kept_block(), align as *mut u8);
    }
    let start = if fails(size) { std::ptr::null_mut() } else { malloc(size.max(align)) };
    Block::new(start, align as *mut u8)
}

#[no_mangle]
unsafe extern "C" fn rattle_realloc(block: *mut u8, _kept: usize, size: usize, align: usize) -> Block {
    if block == KEPT.get().0 {
        // A device that takes more than it keeps.
        return Block::new(std::ptr::null_mut(), block);
    }
    let start = if fails(size) { std::ptr::null_mut() } else { realloc(block, size.max(align)) };
    Block::new(start, block)
}

#[no_mangle]
unsafe extern "C" fn rattle_dealloc(block: *mut u8) {
    if block == KEPT.get().0 {
        KEPT.set((block, false));
    } else {
        free(block);
    }
}
