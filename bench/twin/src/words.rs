//! Words and numbers of a line.

/// A number of decimal digits; one that is too large is the largest.
pub fn number(word: &[u8]) -> Option<u64> {
    if word.is_empty() || !word.iter().all(u8::is_ascii_digit) {
        return None;
    }
    Some(word.iter().fold(0u64, |n, digit| {
        n.checked_mul(10)
            .and_then(|n| n.checked_add(u64::from(digit - b'0')))
            .unwrap_or(u64::MAX)
    }))
}

/// A number as it is printed: without leading zeros.
pub fn printed(word: &[u8]) -> &str {
    let zeros = word
        .iter()
        .take_while(|b| **b == b'0')
        .count()
        .min(word.len() - 1);
    std::str::from_utf8(&word[zeros..]).unwrap_or("")
}

/// A name: letters and digits.
pub fn name(word: &[u8]) -> Option<&str> {
    if word.is_empty() || !word.iter().all(u8::is_ascii_alphanumeric) {
        return None;
    }
    std::str::from_utf8(word).ok()
}

pub fn hex(bytes: &[u8]) -> String {
    use std::fmt::Write;
    bytes
        .iter()
        .fold(String::with_capacity(2 * bytes.len()), |mut text, byte| {
            let _ = write!(text, "{byte:02x}");
            text
        })
}

/// The bytes of so many lower-case hexadecimal digits.
pub fn unhex<const N: usize>(word: &[u8]) -> Option<[u8; N]> {
    if word.len() != 2 * N {
        return None;
    }
    let digit = |b: u8| match b {
        b'0'..=b'9' => Some(b - b'0'),
        b'a'..=b'f' => Some(b - b'a' + 10),
        _ => None,
    };
    let mut bytes = [0; N];
    for (byte, two) in bytes.iter_mut().zip(word.chunks(2)) {
        *byte = digit(two[0])? * 16 + digit(two[1])?;
    }
    Some(bytes)
}
