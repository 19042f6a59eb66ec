// Stands in for the crate log: its lines are dropped.

#[macro_export]
macro_rules! trace {
    ($($arg:tt)*) => {{}};
}
