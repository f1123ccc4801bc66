//! Buffers between guards, to see every byte that a call may have changed.

use super::Random;

/// Guards on each side of a buffer.
const FENCE: usize = 64;

/// A buffer between two fences, with a copy of what it held at first. The first fence is longer by `shift`, so that
/// buffers start at every alignment.
#[derive(Clone)]
pub struct Fenced<T> {
    pub content: Vec<T>,
    whole: Vec<T>,
    start: usize,
    guard: T,
}

impl<T: Copy + PartialEq> Fenced<T> {
    pub fn new(guard: T, shift: usize, content: &[T]) -> Fenced<T> {
        let whole = [&vec![guard; FENCE + shift], content, &[guard; FENCE]].concat();
        Fenced { content: content.to_vec(), whole, start: FENCE + shift, guard }
    }

    /// A buffer of that length at some alignment; its elements and its guard are drawn one by one.
    pub fn drawn(random: &mut Random, length: usize, draw: impl Fn(&mut Random) -> T) -> Fenced<T> {
        let content: Vec<T> = (0..length).map(|_| draw(random)).collect();
        Fenced::new(draw(random), random.below(8), &content)
    }

    /// What is lent to be read.
    pub fn lent(&self) -> &[T] {
        &self.whole[self.start..][..self.content.len()]
    }

    /// What is lent to be written.
    pub fn lent_mut(&mut self) -> &mut [T] {
        &mut self.whole[self.start..][..self.content.len()]
    }

    /// Whether the buffer holds this content and both fences are whole.
    pub fn is(&self, content: &[T]) -> bool {
        let (before, rest) = self.whole.split_at(self.start);
        let (held, after) = rest.split_at(self.content.len());
        held == content && before.iter().chain(after).all(|guard| *guard == self.guard)
    }

    /// Whether the buffer holds what it held at first and both fences are whole.
    pub fn is_unchanged(&self) -> bool {
        self.is(&self.content)
    }

    /// What the buffer holds; both fences must be whole.
    pub fn held(&self) -> &[T] {
        assert!(self.is(self.lent()), "a place beside the buffer was changed");
        self.lent()
    }
}
