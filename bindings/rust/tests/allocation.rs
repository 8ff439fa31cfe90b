//! Calls into the caller's buffers allocate nothing, once the workspace has room.

mod common;

use common::{FIVE, X, Z, network};
use std::alloc::{GlobalAlloc, Layout, System};
use std::cell::Cell;
use vobzeile::{
    Route, Workspace, dots_into, is_connected, parts, scales_into, solve_into, write_image_into,
};

thread_local! {
    static COUNT: Cell<usize> = const { Cell::new(0) };
}

struct Counting;

// SAFETY: every call goes to the system's allocator as it came.
unsafe impl GlobalAlloc for Counting {
    unsafe fn alloc(&self, layout: Layout) -> *mut u8 {
        COUNT.with(|count| count.set(count.get() + 1));
        unsafe { System.alloc(layout) }
    }

    unsafe fn dealloc(&self, pointer: *mut u8, layout: Layout) {
        unsafe { System.dealloc(pointer, layout) }
    }
}

#[global_allocator]
static COUNTING: Counting = Counting;

fn count() -> usize {
    COUNT.with(Cell::get)
}

#[test]
fn nothing_is_allocated() {
    let directions = [(0, 1, X, 1.0, 1.0), (1, 2, X, 1.0, 1.0)];
    let mut network = network(3, &[(2, 0, Z, 1.0, 1.0)], &directions, &[FIVE]);
    let mut heavy = network.clone();
    heavy.set_weights(&[1e300, 1e300, 1e300]).unwrap();
    heavy.set_scales(&[1e10; 3]).unwrap();
    let route = Route::IterativeThenDense;
    let before = count();
    let mut workspace = Workspace::for_network(&network, route, 48).unwrap();
    assert_ne!(count(), before);
    let (mut cameras, mut points) = ([[0.0; 3]; 3], [[0.0; 3]; 1]);
    let (mut numbers, mut image) = ([0.0; 3], [0; 300]);
    let before = count();
    for _ in 0..3 {
        solve_into(
            &network,
            &mut workspace,
            route,
            48,
            &mut cameras,
            &mut points,
        )
        .unwrap();
        network.set_points(&points).unwrap();
        dots_into(&network, &mut workspace, &cameras, &mut numbers).unwrap();
        scales_into(&network, &mut workspace, &cameras, &mut numbers).unwrap();
        network.set_scales(&numbers).unwrap();
        assert!(is_connected(&network, &mut workspace).unwrap());
        assert_eq!(parts(&network, &mut workspace).unwrap().count, 1);
        write_image_into(&network, &mut image).unwrap();
        // nor by a refusal
        solve_into(&heavy, &mut workspace, route, 48, &mut cameras, &mut points).unwrap_err();
        network.set_lists(&[0, 1], &[1]).unwrap();
        dots_into(&network, &mut workspace, &cameras, &mut numbers).unwrap_err();
        network.set_lists(&[0, 1], &[0]).unwrap();
    }
    assert_eq!(count(), before);
}
