//! Stand-in: events go nowhere.
#[macro_export]
macro_rules! debug {
    ($($t:tt)*) => {};
}

#[macro_export]
macro_rules! trace {
    ($($t:tt)*) => {};
}
