//! Logging that says nothing: the original's texts are no part of what is compared.
//! The arguments are still formed, so that they are used as in the original.

#[macro_export]
macro_rules! warn {
    ($($part:tt)*) => {{ let _ = format_args!($($part)*); }};
}

#[macro_export]
macro_rules! debug {
    ($($part:tt)*) => {{ let _ = format_args!($($part)*); }};
}

#[macro_export]
macro_rules! trace {
    ($($part:tt)*) => {{ let _ = format_args!($($part)*); }};
}
