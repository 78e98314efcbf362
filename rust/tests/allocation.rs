//! Looking a property up by its name, and a refusal, allocate nothing.

use oskuramos::{Blob, ACCESS_2000_CODES};
use std::alloc::{GlobalAlloc, Layout, System};
use std::cell::Cell;

thread_local! { static COUNT: Cell<usize> = const { Cell::new(0) } }

struct Counting;

// SAFETY: the system's allocator does all.
unsafe impl GlobalAlloc for Counting {
    unsafe fn alloc(&self, layout: Layout) -> *mut u8 {
        COUNT.set(COUNT.get() + 1);
        System.alloc(layout)
    }

    unsafe fn dealloc(&self, pointer: *mut u8, layout: Layout) {
        System.dealloc(pointer, layout)
    }
}

#[global_allocator]
static ALLOCATOR: Counting = Counting;

fn allocations<T>(call: impl FnOnce() -> T) -> usize {
    let before = COUNT.get();
    let kept = call();
    let count = COUNT.get() - before;
    drop(kept);
    count
}

#[test]
fn a_look_up_by_name_makes_nothing() {
    let stream = std::fs::read(concat!(env!("CARGO_MANIFEST_DIR"), "/../examples/form-2000.blob")).unwrap();
    let form = Blob::read(ACCESS_2000_CODES, &stream).unwrap();
    assert!(allocations(|| Blob::read(ACCESS_2000_CODES, &stream)) > 0);
    assert_eq!(allocations(|| form.controls.iter().filter(|c| c.property("ControlSource").is_some()).count()), 0);
    assert_eq!(allocations(|| form.property("no such name").is_some()), 0);
    assert_eq!(allocations(|| Blob::read(ACCESS_2000_CODES, &stream[..20]).is_err()), 0);
}
