//! As much of `log` as the original names: its traces go nowhere.

#[macro_export]
macro_rules! trace {
    ($($message:tt)*) => {{
        let _ = format_args!($($message)*);
    }};
}
