//! Stand-in for tracing: nothing is logged.
#[macro_export]
macro_rules! debug {
    ($($t:tt)*) => {{}};
}
#[macro_export]
macro_rules! warn {
    ($($t:tt)*) => {{}};
}
