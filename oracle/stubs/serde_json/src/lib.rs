//! As much of `serde_json` as the original names. It reads and prints no JSON.

use std::fmt;

pub struct Value;

#[derive(Debug)]
pub struct Error;

impl fmt::Display for Error {
    fn fmt(&self, f: &mut fmt::Formatter<'_>) -> fmt::Result {
        f.write_str("there is no JSON here")
    }
}

impl std::error::Error for Error {}

pub fn to_string_pretty(_: &Value) -> Result<String, Error> {
    Err(Error)
}

pub fn from_str<T>(_: &str) -> Result<T, Error> {
    Err(Error)
}

#[macro_export]
macro_rules! json {
    ($value:expr) => {{
        let _ = &$value;
        $crate::Value
    }};
}
