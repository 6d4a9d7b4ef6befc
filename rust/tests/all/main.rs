//! The library beside an independent implementation: on stored answers, on random inputs, and on a small stack.

mod asks;
mod lent;
mod order;
#[cfg(feature = "bench")]
#[path = "../../plain/plain.rs"]
mod plain;
mod random;
mod reference;
mod stack;
mod vectors;

/// Runs a test where the reference has room to call itself.
fn with_room(test: impl FnOnce() + Send + 'static) {
    let thread = std::thread::Builder::new().stack_size(512 << 20).spawn(test).unwrap();
    if let Err(panic) = thread.join() {
        std::panic::resume_unwind(panic);
    }
}
