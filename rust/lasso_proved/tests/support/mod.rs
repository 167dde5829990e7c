//! What the tests share. Each uses a part of it.
#![allow(dead_code)]

/// Numbers from a fixed seed, by xorshift.
pub struct Numbers(pub u64);

impl Numbers {
    /// A number below `end`.
    pub fn below(&mut self, end: usize) -> usize {
        self.0 ^= self.0 << 13;
        self.0 ^= self.0 >> 7;
        self.0 ^= self.0 << 17;
        (self.0 >> 20) as usize % end
    }
}

/// Lengths of texts in bytes. The library keeps a text of at most 14 bytes in its list, and a longer
/// one elsewhere.
pub const LENGTHS: [usize; 7] = [0, 1, 13, 14, 15, 16, 5000];

/// A text of `length` bytes: the number's digits in reverse, filled up with letters, most of them of
/// two bytes. If it has room for all digits, another number gives another text.
pub fn text_of(number: usize, length: usize) -> String {
    let digits = number.to_string();
    let mut text: String = digits.chars().rev().take(length).collect();
    while text.len() + 2 <= length {
        text.push('é');
    }
    if text.len() < length {
        text.push('x');
    }
    text
}
