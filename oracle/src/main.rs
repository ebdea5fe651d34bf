//! The original archive, over stand-ins for what lies around it, answers the script of `moves`.
//! README.md says which words of an answer are the original's.

// Much of the original is not reached from here.
#![allow(dead_code, unused_imports, unused_variables)]

include!(concat!(env!("OUT_DIR"), "/top.rs"));

mod desk;
mod keys;
pub mod rmap;
mod script;
#[cfg(feature = "side_by_side")]
mod speed;
mod surroundings;
pub mod translator;
mod value;

pub use surroundings::{Context, Disk, Sections, SyncCompletion};

// The original's error names these parts, which it is not run with.
pub mod ordinal {
    #[derive(Debug)]
    pub struct Error;
}
pub mod freezer {
    #[derive(Debug)]
    pub struct Error;
}

/// Begins a voyage. The driver lies inside a private module of the original, where only an implementation of a
/// trait from outside can be reached.
pub(crate) trait Begin {
    fn voyage(start: script::Start, disk: Disk) -> Box<dyn desk::Voyage>;
    fn handle(slot: usize, position: u64) -> u64;
}

pub(crate) struct Original;

/// Runs a future to its end: nothing here ever waits.
pub fn run<F: Future>(future: F) -> F::Output {
    let mut future = std::pin::pin!(future);
    let mut context = std::task::Context::from_waker(std::task::Waker::noop());
    loop {
        if let std::task::Poll::Ready(output) = future.as_mut().poll(&mut context) {
            return output;
        }
    }
}

fn main() {
    let word = std::env::args().nth(1);
    #[cfg(feature = "side_by_side")]
    if word.as_deref() == Some("--speed") {
        return speed::measure();
    }
    let bare = word.is_some_and(|word| word == "--bare");
    std::panic::set_hook(Box::new(|_| {}));
    let out = std::io::stdout().lock();
    desk::Desk::new(bare).serve(std::io::stdin().lock(), out);
}
