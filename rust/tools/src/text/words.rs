//! The words of a line, taken one by one.

use std::iter::Peekable;
use std::ops::RangeInclusive;
use std::str::SplitWhitespace;

pub struct Words<'a> {
    rest: Peekable<SplitWhitespace<'a>>,
}

impl<'a> Words<'a> {
    pub fn new(line: &'a str) -> Words<'a> {
        Words { rest: line.split_whitespace().peekable() }
    }

    pub fn next(&mut self, what: &str) -> Result<&'a str, String> {
        self.rest.next().ok_or_else(|| format!("the line ends where {what} should follow"))
    }

    pub fn expect(&mut self, word: &str) -> Result<(), String> {
        let next = self.next(&format!("'{word}'"))?;
        if next == word {
            Ok(())
        } else {
            Err(format!("'{word}' should stand where '{next}' stands"))
        }
    }

    /// Takes this word if it is the next one, and tells whether it was.
    pub fn take(&mut self, word: &str) -> bool {
        self.rest.next_if(|next| *next == word).is_some()
    }

    pub fn end(&mut self) -> Result<(), String> {
        match self.rest.next() {
            None => Ok(()),
            Some(word) => Err(format!("the line should end before '{word}'")),
        }
    }

    /// A number that fits into a byte.
    pub fn number(&mut self, what: &str) -> Result<u8, String> {
        number(self.next(what)?, what, 0..=255).map(|value| value as u8)
    }

    /// A number that fits into two bytes, and is not 0.
    pub fn long_number(&mut self, what: &str) -> Result<u16, String> {
        number(self.next(what)?, what, 1..=65_535)
    }

    /// Numbers below a limit, up to the end of the line or a word of letters; none of them is written 'none'.
    pub fn numbers(&mut self, what: &str, limit: usize) -> Result<Vec<u8>, String> {
        if self.take("none") {
            return Ok(Vec::new());
        }
        let allowed = 0..=limit as u16 - 1;
        let mut numbers = vec![number(self.next(what)?, what, allowed.clone())? as u8];
        while let Some(word) = self.rest.next_if(|word| !word.starts_with(char::is_alphabetic)) {
            numbers.push(number(word, what, allowed.clone())? as u8);
        }
        Ok(numbers)
    }

    /// Numbers in rising order.
    pub fn set(&mut self, what: &str, limit: usize) -> Result<Vec<u8>, String> {
        let numbers = self.numbers(what, limit)?;
        match numbers.windows(2).find(|pair| pair[0] >= pair[1]) {
            None => Ok(numbers),
            Some(pair) => Err(format!("numbers rise, but {} stands before {}", pair[0], pair[1])),
        }
    }

    pub fn hex_byte(&mut self) -> Result<u8, String> {
        let word = self.next("the next of eight bytes")?;
        let digit = |byte: &u8| matches!(byte, b'0'..=b'9' | b'a'..=b'f');
        if word.len() == 2 && word.as_bytes().iter().all(digit) {
            Ok(u8::from_str_radix(word, 16).expect("two hexadecimal digits"))
        } else {
            Err(format!("a byte is two digits of 0 to 9 and a to f, not '{word}'"))
        }
    }
}

/// An allowed number, without needless zeros before it.
fn number(word: &str, what: &str, allowed: RangeInclusive<u16>) -> Result<u16, String> {
    let plain = word.bytes().all(|byte| byte.is_ascii_digit()) && (word == "0" || !word.starts_with('0'));
    let value = if plain { word.parse().ok() } else { None };
    match value {
        Some(value) if allowed.contains(&value) => Ok(value),
        _ => Err(format!("{what} is a number from {} to {}, not '{word}'", allowed.start(), allowed.end())),
    }
}
