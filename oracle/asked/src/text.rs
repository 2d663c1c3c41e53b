//! Numbers in lines of text.

use std::fmt::Display;
use std::str::FromStr;

pub fn number<T: FromStr>(word: &str) -> Result<T, String> {
    word.parse().map_err(|_| format!("{:?} is no number that fits here", word))
}

pub fn many<T: FromStr>(rest: &str) -> Result<Vec<T>, String> {
    rest.split(' ').map(number).collect()
}

pub fn numbers<T: FromStr, const N: usize>(rest: &str) -> Result<[T; N], String> {
    many(rest)?.try_into().map_err(|_| format!("{} numbers come here", N))
}

/// Numbers, or `-` where there are none.
pub fn listed<T: Display>(items: impl IntoIterator<Item = T>) -> String {
    let items: Vec<String> = items.into_iter().map(|item| item.to_string()).collect();
    if items.is_empty() {
        return "-".to_string();
    }
    items.join(" ")
}
