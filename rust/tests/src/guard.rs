//! Buffers with guards on both sides.

use crate::watched;

/// Guards on each side.
const WIDTH: usize = 96;

/// What a buffer may consist of: bytes, or the numbers of a wear report.
pub trait Item: Copy + PartialEq {
    /// What guards hold.
    const FILLING: Self;
}

impl Item for u8 {
    const FILLING: u8 = 0xB7;
}

impl Item for u64 {
    const FILLING: u64 = 0xB7B7_B7B7_B7B7_B7B7;
}

/// A buffer between guards.
pub struct Guarded<T = u8> {
    items: Box<[T]>,
    start: usize,
    length: usize,
}

impl<T: Item> Guarded<T> {
    /// A buffer with this content. `shift` moves its start, so that it lies at
    /// any alignment that its items may have.
    pub fn new(content: &[T], shift: usize) -> Guarded<T> {
        if watched() {
            return Guarded {
                items: content.into(),
                start: 0,
                length: content.len(),
            };
        }
        let start = WIDTH + shift % 16;
        let mut items = vec![T::FILLING; start + content.len() + WIDTH];
        items[start..start + content.len()].copy_from_slice(content);
        Guarded {
            items: items.into(),
            start,
            length: content.len(),
        }
    }

    /// The content.
    pub fn content(&self) -> &[T] {
        &self.items[self.start..self.start + self.length]
    }

    /// The content, to be written.
    pub fn content_mut(&mut self) -> &mut [T] {
        &mut self.items[self.start..self.start + self.length]
    }

    /// Whether all guards are as they were.
    pub fn intact(&self) -> bool {
        let (before, rest) = self.items.split_at(self.start);
        let after = &rest[self.length..];
        before.iter().chain(after).all(|&item| item == T::FILLING)
    }
}
