//! Elements that take the place of the next item put in front of a queue. The
//! orchestrator puts an item in front at the first failure of a dispatch alone,
//! in a queue that nothing else reaches; so a comparison can let something other
//! than the lockdown follow a failure, with the orchestrator unchanged.

use std::any::Any;
use std::boxed::Box;
use std::cell::{Cell, RefCell};
use std::vec::Vec;

std::thread_local! {
    /// Whether there is something in `PLANTED`: all that is asked where nothing
    /// is planted.
    static IS_PLANTED: Cell<bool> = const { Cell::new(false) };
    static PLANTED: RefCell<Option<Box<dyn Any>>> = const { RefCell::new(None) };
}

/// The next `push_front` on this thread puts these items in front, in this
/// order, in place of its own. Of what is queued already as many stay, from the
/// front, as there is room for.
pub fn plant<T: 'static>(items: Vec<T>) {
    PLANTED.set(Some(Box::new(items)));
    IS_PLANTED.set(true);
}

/// Takes away what was planted; whether it was still there.
pub fn uproot() -> bool {
    PLANTED.set(None);
    IS_PLANTED.replace(false)
}

#[cfg(feature = "plant")]
pub(crate) fn is_planted() -> bool {
    IS_PLANTED.get()
}

/// What was planted, for a queue of such items.
#[cfg(feature = "plant")]
pub(crate) fn take<T: 'static>() -> Vec<T> {
    IS_PLANTED.set(false);
    let items = PLANTED.take().expect("something is planted");
    *items.downcast().expect("items of the queue's type")
}
