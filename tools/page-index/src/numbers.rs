//! Numbers read and written.
use std::fmt;

/// A number below 2^64: decimal, or hexadecimal behind 0x.
pub fn number(text: &str) -> Option<u64> {
    let (digits, radix) = text.strip_prefix("0x").map_or((text, 10), |digits| (digits, 16));
    // from_str_radix takes a sign; a number has none.
    digits.bytes().all(|byte| byte.is_ascii_alphanumeric()).then(|| u64::from_str_radix(digits, radix).ok()).flatten()
}

/// A number of things: `1 store`, `2 stores`.
pub fn counted(number: usize, thing: &str) -> String {
    format!("{number} {thing}{}", if number == 1 { "" } else { "s" })
}

/// Writes those of several things of which there are some: `these: 1; those: 2`.
pub fn write_counted(f: &mut fmt::Formatter<'_>, things: &[(usize, &str)]) -> fmt::Result {
    let some = things.iter().filter(|(number, _)| *number > 0).map(|(number, thing)| format!("{thing}: {number}"));
    f.write_str(&some.collect::<Vec<_>>().join("; "))
}
