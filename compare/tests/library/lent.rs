//! Memory to lend, with guard words before and after it.

use std::fmt::Debug;

/// A number that is lent to the library.
pub trait Word: Copy + PartialEq + Debug {
    fn guard(index: usize) -> Self;
}

impl Word for u8 {
    fn guard(index: usize) -> u8 {
        (index as u8).wrapping_mul(167) ^ 0x5c
    }
}

impl Word for i32 {
    fn guard(index: usize) -> i32 {
        u32::guard(index) as i32
    }
}

impl Word for u32 {
    fn guard(index: usize) -> u32 {
        (index as u32).wrapping_mul(2_654_435_761) ^ 0x5ca1_ab1e
    }
}

const AFTER: usize = 9;

/// Words between guard words. What is lent starts at differing alignments.
pub struct Lent<T> {
    words: Vec<T>,
    start: usize,
    entry: Vec<T>,
}

impl<T: Word> Lent<T> {
    pub fn new(content: &[T], alignment: usize) -> Lent<T> {
        let start = 4 + alignment % 9;
        let before = (0..start).map(T::guard);
        let after = (start + content.len()..start + content.len() + AFTER).map(T::guard);
        Lent { words: before.chain(content.iter().copied()).chain(after).collect(), start, entry: content.to_vec() }
    }

    pub fn len(&self) -> usize {
        self.entry.len()
    }

    pub fn pointer(&mut self) -> *mut T {
        self.words[self.start..].as_mut_ptr()
    }

    pub fn content(&self) -> &[T] {
        &self.words[self.start..self.start + self.entry.len()]
    }

    /// What the memory held before the call.
    pub fn entry(&self) -> &[T] {
        &self.entry
    }

    /// Says where the memory or its guard words differ from what they must hold.
    pub fn differs(&self, name: &str, expected: &[T]) -> Option<String> {
        let content = self.start..self.start + self.entry.len();
        for (index, &word) in self.words.iter().enumerate() {
            if !content.contains(&index) && word != T::guard(index) {
                return Some(format!("{name}: the guard word {} elements from its start is {word:?}", {
                    index as isize - self.start as isize
                }));
            }
        }
        assert_eq!(expected.len(), self.entry.len());
        let index = (0..expected.len()).find(|&index| expected[index] != self.content()[index])?;
        let found = self.content()[index];
        Some(format!("{name}[{index}] is {found:?}, expected {:?}", expected[index]))
    }
}
