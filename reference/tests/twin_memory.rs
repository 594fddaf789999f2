//! The twin uses lent memory only: no heap, and little stack.

use reference::compare::programs::TWIN;
use reference::fuzz::CALLS;
use reference::offsets;
use reference::script::{script, Script};
use std::alloc::{GlobalAlloc, Layout, System};
use std::cell::Cell;
use std::thread;

/// The system's allocator, counting what each thread asks of it.
struct Counting;

thread_local! {
    static ASKED: Cell<u64> = const { Cell::new(0) };
}

// SAFETY: every request is passed on to the system's allocator.
unsafe impl GlobalAlloc for Counting {
    unsafe fn alloc(&self, layout: Layout) -> *mut u8 {
        ASKED.set(ASKED.get() + 1);
        System.alloc(layout)
    }

    unsafe fn dealloc(&self, pointer: *mut u8, layout: Layout) {
        System.dealloc(pointer, layout);
    }
}

#[global_allocator]
static ALLOCATOR: Counting = Counting;

/// Makes the calls of a list by the twin; gives how often it asked for memory.
fn run(script: &Script) -> u64 {
    let mut image = script.sample.image.clone();
    let mut asked = 0;
    for request in &script.requests {
        let (mut scratch, mut buffer) = request.buffers();
        let before = ASKED.get();
        TWIN.call(&request.call, &mut image, &mut scratch, &mut buffer);
        asked += ASKED.get() - before;
    }
    asked
}

/// Lists of any calls, and of calls on offset tables.
fn lists() -> Vec<Script> {
    let of_seed = |seed| [script(seed, CALLS), offsets::script(seed).0];
    (0..100).flat_map(of_seed).collect()
}

#[test]
fn no_heap() {
    let before = ASKED.get();
    drop(vec![1]);
    assert_eq!(ASKED.get(), before + 1);
    for (place, list) in lists().iter().enumerate() {
        assert_eq!(run(list), 0, "list {place}");
    }
}

#[test]
fn little_stack() {
    let scripts = lists();
    thread::scope(|scope| {
        let small = thread::Builder::new().stack_size(32 * 1024);
        let calls = || scripts.iter().map(run).sum::<u64>();
        let running = small.spawn_scoped(scope, calls).expect("a thread");
        assert_eq!(running.join().expect("no fault"), 0);
    });
}
