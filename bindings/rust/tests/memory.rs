//! Calls in which allocations of the process fail. The library itself takes its memory from the C library, and
//! isn't touched by this allocator.

// Clippy of Rust 1.63 takes the constant inside `thread_local!` for one of this file.
#![allow(clippy::declare_interior_mutable_const)]

use modinfo::Fault;
use std::alloc::{GlobalAlloc, Layout, System};
use std::cell::Cell;

thread_local! {
    /// The number of further allocations of this thread that are granted. `None` grants all.
    static GRANTED: Cell<Option<usize>> = const { Cell::new(None) };
}

struct Refusing;

impl Refusing {
    fn grants() -> bool {
        GRANTED.with(|granted| match granted.get() {
            None => true,
            Some(0) => false,
            Some(number) => {
                granted.set(Some(number - 1));
                true
            }
        })
    }
}

// SAFETY: each call is handed on to `System` as it is, or returns null, which means out of memory.
unsafe impl GlobalAlloc for Refusing {
    unsafe fn alloc(&self, layout: Layout) -> *mut u8 {
        if Refusing::grants() {
            System.alloc(layout)
        } else {
            std::ptr::null_mut()
        }
    }

    unsafe fn dealloc(&self, at: *mut u8, layout: Layout) {
        System.dealloc(at, layout);
    }

    unsafe fn realloc(&self, at: *mut u8, layout: Layout, size: usize) -> *mut u8 {
        if Refusing::grants() {
            System.realloc(at, layout, size)
        } else {
            std::ptr::null_mut()
        }
    }
}

#[global_allocator]
static ALLOCATOR: Refusing = Refusing;

/// What a call returns of which only the first allocations are granted.
fn with_granted<T>(number: usize, call: impl FnOnce() -> T) -> T {
    GRANTED.with(|granted| granted.set(Some(number)));
    let returned = call();
    GRANTED.with(|granted| granted.set(None));
    returned
}

const VALID: &[u8] =
    br#"{"specifier":"file:///a.js","mediaType":"JavaScript","source":"","program":{"range":[0,0],"body":[]}}"#;

#[test]
fn an_answer_without_memory() {
    let answer = modinfo::analyze_json(VALID).expect("an answer");
    let refused = with_granted(0, || modinfo::analyze_json(VALID)).expect_err("no memory");
    assert_eq!(refused.fault(), &Fault::OutOfMemory);
    assert_eq!(refused.report(), None);
    assert_eq!(refused.to_string(), "OutOfMemory");
    for number in 1..6 {
        assert_eq!(
            with_granted(number, || modinfo::analyze_json(VALID)).as_ref(),
            Ok(&answer)
        );
    }
}

#[test]
fn a_report_without_memory() {
    let report = modinfo::check_json(b"{}").expect("a report");
    let refused = with_granted(0, || modinfo::check_json(b"{}")).expect_err("no memory");
    assert_eq!(refused, Fault::OutOfMemory);
    assert_eq!(with_granted(1, || modinfo::check_json(b"{}")), Ok(report));
}

#[test]
fn a_fault_whose_report_has_no_memory() {
    let whole = modinfo::analyze_json(b"{}").expect_err("a fault");
    assert!(whole.report().is_some());
    // Room for the answer and, from the second on, for the report and its parts.
    let mut granted = 1;
    while with_granted(granted, || modinfo::analyze_json(b"{}")).as_ref() != Err(&whole) {
        let refused = with_granted(granted, || modinfo::analyze_json(b"{}")).expect_err("a fault");
        assert_eq!((refused.fault(), refused.report()), (&Fault::Tree, None));
        granted += 1;
    }
    assert!((4..20).contains(&granted), "{granted}");
}
