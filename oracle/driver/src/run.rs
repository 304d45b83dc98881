//! Running the Rust: its panics are caught and stay quiet, those of the driver are not.

use std::panic::{AssertUnwindSafe, catch_unwind, set_hook, take_hook};
use std::sync::atomic::{AtomicBool, Ordering};

use crate::line::{Line, Stop};

/// Reads the rest of a case and answers it.
pub type Operation = fn(&mut Line) -> Result<String, Stop>;

/// The Rust is running.
static INSIDE: AtomicBool = AtomicBool::new(false);

/// Runs a call of the Rust.
pub fn rust<T>(call: impl FnOnce() -> T) -> Result<T, Stop> {
    INSIDE.store(true, Ordering::Relaxed);
    let outcome = catch_unwind(AssertUnwindSafe(call));
    INSIDE.store(false, Ordering::Relaxed);
    outcome.map_err(|panic| Stop::Panicked(panic.downcast_ref::<String>().cloned().unwrap_or_default()))
}

/// From here on a panic of the Rust writes nothing.
pub fn quiet() {
    let loud = take_hook();
    set_hook(Box::new(move |panic| {
        if !INSIDE.load(Ordering::Relaxed) {
            loud(panic);
        }
    }));
}
