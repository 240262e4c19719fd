//! What the current case has reached: the limits by which a visit was refused, and the marked branches. Text whose
//! branches are not marked reaches none.

use std::cell::{Cell, RefCell};
use std::collections::BTreeSet;

thread_local! {
    static LIMITS: Cell<u16> = const { Cell::new(0) };
    static BRANCHES: RefCell<BTreeSet<u16>> = const { RefCell::new(BTreeSet::new()) };
}

pub fn limit(number: u16) {
    LIMITS.set(LIMITS.get() | number);
}

/// The sum of the limits reached since this was last asked.
pub fn take_limits() -> u16 {
    LIMITS.take()
}

#[allow(dead_code)]
pub fn branch(number: u16) {
    BRANCHES.with_borrow_mut(|branches| branches.insert(number));
}

/// The branches reached since this was last asked.
pub fn take_branches() -> BTreeSet<u16> {
    BRANCHES.take()
}
