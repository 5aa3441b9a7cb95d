//! A call that ends in a signal, such as a step outside the memory lent: the
//! case is shown before the process goes down.

use reference::host::Call;
use std::cell::Cell;
use std::sync::OnceLock;

extern "C" {
    fn signal(number: i32, handler: extern "C" fn(i32)) -> usize;
    fn _exit(status: i32) -> !;
}

thread_local! {
    /// The call that this thread is in.
    static CURRENT: Cell<*const Call<'static>> = const { Cell::new(std::ptr::null()) };
}

/// Shows a call and the number of the signal.
type Show = fn(&Call, i32);

static SHOW: OnceLock<Show> = OnceLock::new();

/// A call begins.
pub(crate) fn enter(call: &Call) {
    CURRENT.set(std::ptr::from_ref(call).cast());
}

/// It has come back.
pub(crate) fn leave() {
    CURRENT.set(std::ptr::null());
}

/// Whatever the signal's cause, the process ends here with status 1.
extern "C" fn crashed(number: i32) {
    let call = CURRENT.get();
    CURRENT.set(std::ptr::null());
    if let (Some(show), false) = (SHOW.get(), call.is_null()) {
        // Safety: `enter` was given this call, and it is borrowed until
        // `leave`, which was not reached.
        show(unsafe { &*call }, number);
    }
    // Safety: it ends the process and does nothing else.
    unsafe { _exit(1) }
}

/// From now on a signal that tells of a wrong step is shown in this way.
pub fn watch(show: Show) {
    const ILLEGAL: i32 = 4;
    const ABORT: i32 = 6;
    const BUS: i32 = 7;
    const ARITHMETIC: i32 = 8;
    const SEGMENT: i32 = 11;
    if SHOW.set(show).is_ok() {
        for number in [ILLEGAL, ABORT, BUS, ARITHMETIC, SEGMENT] {
            // Safety: the handler fits, and it does not return.
            unsafe {
                signal(number, crashed);
            }
        }
    }
}
