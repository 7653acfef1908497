//! The version of the wrapper, and the test that the archive is of the same one.

/// The version of the wrapper, and of the archive that it is written for.
pub const VERSION: &str = env!("CARGO_PKG_VERSION");

/// The version as the archive gives its own: a million times the first number, a thousand times the second, the third.
const NUMBER: u32 = 1_000_000 * number(env!("CARGO_PKG_VERSION_MAJOR"))
    + 1_000 * number(env!("CARGO_PKG_VERSION_MINOR"))
    + number(env!("CARGO_PKG_VERSION_PATCH"));

const fn number(digits: &str) -> u32 {
    let digits = digits.as_bytes();
    let mut value = 0;
    let mut i = 0;
    while i < digits.len() {
        value = 10 * value + (digits[i] - b'0') as u32;
        i += 1;
    }
    value
}

/// Panics where the archive is of another version: its functions may be other ones.
pub(crate) fn test(archive: u32) {
    assert!(
        archive == NUMBER,
        "libengine.a is of version {}, its wrapper of version {VERSION}",
        text(archive)
    );
}

fn text(number: u32) -> String {
    format!("{}.{}.{}", number / 1_000_000, number / 1_000 % 1_000, number % 1_000)
}

#[cfg(test)]
mod tests {
    use super::*;

    #[test]
    fn the_archive_is_of_the_wrappers_version() {
        assert_eq!(text(crate::raw::version()), VERSION);
        test(crate::raw::version());
    }

    #[test]
    #[should_panic(expected = "libengine.a is of version 8.12.3, its wrapper of version ")]
    fn another_version_is_told() {
        test(8_012_003);
    }
}
