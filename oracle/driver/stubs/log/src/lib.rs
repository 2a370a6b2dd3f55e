//! Stands in for the crate `log`: the macros take their arguments and write nothing.
#[macro_export]
macro_rules! unlogged { ($($t:tt)*) => { { let _ = format_args!($($t)*); } } }
#[macro_export]
macro_rules! debug { ($($t:tt)*) => { $crate::unlogged!($($t)*) } }
#[macro_export]
macro_rules! error { ($($t:tt)*) => { $crate::unlogged!($($t)*) } }
#[macro_export]
macro_rules! info { ($($t:tt)*) => { $crate::unlogged!($($t)*) } }
#[macro_export]
macro_rules! warn { ($($t:tt)*) => { $crate::unlogged!($($t)*) } }
#[macro_export]
macro_rules! trace { ($($t:tt)*) => { $crate::unlogged!($($t)*) } }
