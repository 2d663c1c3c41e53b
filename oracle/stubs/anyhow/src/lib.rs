//! As much of `anyhow` as the original names: an error that is its text.

use std::fmt;

pub struct Error(String);

pub type Result<T, E = Error> = std::result::Result<T, E>;

impl Error {
    pub fn msg(text: impl fmt::Display) -> Error {
        Error(text.to_string())
    }
}

impl fmt::Display for Error {
    fn fmt(&self, f: &mut fmt::Formatter<'_>) -> fmt::Result {
        f.write_str(&self.0)
    }
}

impl fmt::Debug for Error {
    fn fmt(&self, f: &mut fmt::Formatter<'_>) -> fmt::Result {
        f.write_str(&self.0)
    }
}

impl<E: std::error::Error> From<E> for Error {
    fn from(error: E) -> Error {
        Error::msg(error)
    }
}

#[macro_export]
macro_rules! anyhow {
    ($format:literal $($rest:tt)*) => {
        $crate::Error::msg(format!($format $($rest)*))
    };
    ($text:expr) => {
        $crate::Error::msg($text)
    };
}

#[macro_export]
macro_rules! bail {
    ($($text:tt)*) => {
        return Err($crate::anyhow!($($text)*))
    };
}
