//! Sets of groups and processes, as masks and as words.

/// The numbers of a mask.
pub fn members(mask: u16) -> Vec<u8> {
    (0..16).filter(|i| mask >> i & 1 == 1).collect()
}

/// Numbers with spaces between; 'none' if there are none.
pub fn list(numbers: &[u8]) -> String {
    if numbers.is_empty() {
        return "none".to_string();
    }
    numbers.iter().map(u8::to_string).collect::<Vec<_>>().join(" ")
}
