//! Words of sentences that count, and numbers in them.

/// So many of what has a plural in s.
pub fn counted(count: usize, what: &str) -> String {
    match count {
        1 => format!("1 {}", what),
        _ => format!("{} {}s", count, what),
    }
}

/// A number with a comma before each three digits, as the documents write their limits.
pub fn grouped(number: impl Into<i64>) -> String {
    let number = number.into();
    let digits = number.unsigned_abs().to_string();
    let mut grouped = if number < 0 { "-" } else { "" }.to_string();
    for (at, digit) in digits.chars().enumerate() {
        if at > 0 && (digits.len() - at) % 3 == 0 {
            grouped.push(',');
        }
        grouped.push(digit);
    }
    grouped
}

/// A count of bytes, likewise.
pub fn grouped_bytes(bytes: u64) -> String {
    let number = i64::try_from(bytes).unwrap_or(i64::MAX);
    format!("{} bytes", grouped(number))
}

/// Numbers of which one is meant: 1, 2 or 3.
pub fn or(numbers: &[u32]) -> String {
    let words: Vec<String> = numbers.iter().map(u32::to_string).collect();
    match words.split_last() {
        Some((last, before)) if !before.is_empty() => format!("{} or {}", before.join(", "), last),
        _ => words.concat(),
    }
}

/// Bytes in hexadecimal, so many in a group and a space between groups.
pub fn hexadecimal(bytes: &[u8], group: usize) -> String {
    let digits = |bytes: &[u8]| bytes.iter().map(|byte| format!("{:02X}", byte)).collect();
    let groups: Vec<String> = bytes.chunks(group).map(digits).collect();
    groups.join(" ")
}

/// That memory was asked for and is not there.
pub fn no_memory(bytes: usize) -> String {
    format!("no memory for {}", grouped_bytes(bytes as u64))
}

#[cfg(test)]
mod tests {
    use super::*;

    #[test]
    fn one_has_no_plural() {
        assert_eq!(counted(1, "row"), "1 row");
        assert_eq!(counted(0, "row"), "0 rows");
    }

    #[test]
    fn the_last_of_several_is_told_behind_or() {
        assert_eq!(or(&[375, 0]), "375 or 0");
        assert_eq!(or(&[1, 2, 3]), "1, 2 or 3");
        assert_eq!([or(&[7]), or(&[])], ["7", ""]);
    }

    #[test]
    fn bytes_stand_in_groups() {
        assert_eq!(hexadecimal(b"~BK\0", 1), "7E 42 4B 00");
        assert_eq!(hexadecimal(&[0, 1, 0xFF], 2), "0001 FF");
        assert_eq!(hexadecimal(&[], 8), "");
    }

    #[test]
    fn digits_stand_in_threes() {
        for (number, text) in [
            (0, "0"),
            (999, "999"),
            (30_000, "30,000"),
            (900_000_000, "900,000,000"),
        ] {
            assert_eq!(grouped(number), text);
        }
        assert_eq!(grouped_bytes(1_073_741_824), "1,073,741,824 bytes");
        assert_eq!(no_memory(999), "no memory for 999 bytes");
    }
}
