//! Counts what is taken from the heap.

use std::{
    alloc::{GlobalAlloc, Layout, System},
    sync::atomic::{AtomicUsize, Ordering::Relaxed},
};

pub struct Counting;

static TAKEN: AtomicUsize = AtomicUsize::new(0);
static HELD: AtomicUsize = AtomicUsize::new(0);
static PEAK: AtomicUsize = AtomicUsize::new(0);

fn more(bytes: usize) {
    TAKEN.fetch_add(1, Relaxed);
    let held = HELD.fetch_add(bytes, Relaxed) + bytes;
    PEAK.fetch_max(held, Relaxed);
}

unsafe impl GlobalAlloc for Counting {
    unsafe fn alloc(&self, layout: Layout) -> *mut u8 {
        more(layout.size());
        unsafe { System.alloc(layout) }
    }

    unsafe fn dealloc(&self, place: *mut u8, layout: Layout) {
        HELD.fetch_sub(layout.size(), Relaxed);
        unsafe { System.dealloc(place, layout) }
    }

    unsafe fn realloc(&self, place: *mut u8, layout: Layout, size: usize) -> *mut u8 {
        HELD.fetch_sub(layout.size(), Relaxed);
        more(size);
        unsafe { System.realloc(place, layout, size) }
    }
}

/// A stretch of work, from its start.
#[derive(Clone, Copy)]
pub struct Mark {
    taken: usize,
    held: usize,
}

impl Mark {
    pub fn start() -> Mark {
        let held = HELD.load(Relaxed);
        PEAK.store(held, Relaxed);
        Mark { taken: TAKEN.load(Relaxed), held }
    }

    /// How often something was taken since, and the most held at a time beyond
    /// what was held at the start.
    pub fn so_far(self) -> (usize, usize) {
        (TAKEN.load(Relaxed) - self.taken, PEAK.load(Relaxed).saturating_sub(self.held))
    }
}
