//! Lists that are lent to the engine, each inside a larger buffer whose other elements must stay.

use crate::draw::Draw;
use std::fmt::Debug;

/// What a lent list is made of.
pub trait Element: Copy + PartialEq + Debug + Send {
    fn from_word(word: u64) -> Self;
}

impl Element for u8 {
    fn from_word(word: u64) -> Self {
        (word >> 56) as u8
    }
}

impl Element for u64 {
    fn from_word(word: u64) -> Self {
        word
    }
}

impl Element for i64 {
    fn from_word(word: u64) -> Self {
        word as i64
    }
}

pub struct Lent<T> {
    before: Vec<T>,
    after: Vec<T>,
    start: usize,
    length: usize,
}

impl<T: Element> Lent<T> {
    /// A list of this length with drawn contents, in a buffer that goes beyond it on both sides.
    pub fn new(draw: &mut Draw, length: usize) -> Self {
        let start = 8 + draw.below(9);
        let word = draw.word() | 1;
        let before: Vec<T> = (0..(start + length + 16) as u64)
            .map(|i| T::from_word(word.wrapping_mul(2 * i + 1)))
            .collect();
        Lent { after: before.clone(), before, start, length }
    }

    pub fn list(&mut self) -> &mut [T] {
        &mut self.after[self.start..self.start + self.length]
    }

    /// Whether the list begins with the result, and all else in the buffer is as it was.
    pub fn holds(&self, result: &[T]) -> bool {
        let end = self.start + result.len();
        self.after[self.start..end] == *result
            && self.after[..self.start] == self.before[..self.start]
            && self.after[end..] == self.before[end..]
    }

    /// How the buffer differs from what it should be: the result, and all else as it was.
    pub fn describe(&self, result: &[T]) -> String {
        let mut expected = self.before.clone();
        expected[self.start..self.start + result.len()].copy_from_slice(result);
        let differs = |i: &usize| expected[*i] != self.after[*i];
        let Some(place) = (0..expected.len()).find(differs) else {
            return format!("length {}, as expected", self.length);
        };
        let near = place..(place + 24).min(expected.len());
        format!(
            "length {}, differs from place {} on: expected {:?}, holds {:?}",
            self.length,
            place as i64 - self.start as i64,
            &expected[near.clone()],
            &self.after[near]
        )
    }
}
