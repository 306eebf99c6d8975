//! A difference ends a feed's run: it unwinds to whoever runs the feed, with what differs as its text.
use std::fmt::Debug;
use std::panic::{AssertUnwindSafe, catch_unwind};

pub fn differ(what: String) -> ! {
    std::panic::panic_any(what)
}

/// Ends the run where the two are not equal.
pub fn same<T: PartialEq + Debug + ?Sized>(what: impl Fn() -> String, here: &T, rust: &T) {
    if here != rust {
        differ(format!("{}\n  here: {here:?}\n  Rust: {rust:?}", what()));
    }
}

/// What a run said, or the difference that ended it; a panic of the Rust side is one too.
pub fn caught<T>(run: impl FnOnce() -> T) -> Result<T, String> {
    catch_unwind(AssertUnwindSafe(run)).map_err(|e| {
        let text = e.downcast_ref::<String>().cloned();
        text.or_else(|| e.downcast_ref::<&str>().map(|s| s.to_string())).unwrap_or("a panic without text".into())
    })
}
