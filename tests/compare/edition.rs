//! A number by ISO/IEC 9899:2024 (request M-100), written apart from ours: the row of digits is split at its quotes.

pub fn read_2024(text: &str) -> Option<i64> {
    let (minus, s) = text.strip_prefix('-').map_or((false, text), |r| (true, r));
    let behind = |small, large| s.strip_prefix(small).or_else(|| s.strip_prefix(large));
    let (base, row) = if let Some(r) = behind("0x", "0X") {
        (16, r)
    } else if let Some(r) = behind("0b", "0B") {
        (2, r)
    } else {
        (if s.starts_with('0') { 8 } else { 10 }, s)
    };
    // no piece is empty: so no quote stands first, last or beside another
    let pieces: Vec<&str> = row.split('\'').collect();
    if pieces.iter().any(|p| p.is_empty() || !p.chars().all(|c| c.is_digit(base))) {
        return None;
    }
    let v = u64::from_str_radix(&pieces.concat(), base).ok()?;
    if base == 10 && v > i64::MAX as u64 {
        return None;
    }
    Some(if minus { (v as i64).wrapping_neg() } else { v as i64 })
}
