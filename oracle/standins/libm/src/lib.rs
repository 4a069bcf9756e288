//! Stand-in for crate `libm`: `cbrt` is whichever root this thread has chosen.
//!
//! quiche's cubic.rs calls `libm::cbrt` and nothing else of it. The oracle
//! chooses 01's exact root or the one libm ships.

use std::cell::Cell;

fn none_chosen(_: f64) -> f64 {
    panic!("no cube root has been chosen on this thread")
}

thread_local! {
    static ROOT: Cell<fn(f64) -> f64> = const { Cell::new(none_chosen) };
}

/// From now on `cbrt` answers with `root` on this thread.
pub fn choose_root(root: fn(f64) -> f64) {
    ROOT.with(|r| r.set(root));
}

pub fn cbrt(x: f64) -> f64 {
    ROOT.with(|r| r.get())(x)
}
