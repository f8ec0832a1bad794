//! Buffers that are lent to an entry, between guard bytes.
//!
//! The guards show a write outside the lent part, and their odd length takes
//! away any alignment that an entry might count on.

const GUARD: usize = 33;

/// What buffers are made of, and what their guards hold.
pub trait Element: Copy + PartialEq {
    const GUARD: Self;
}

impl Element for u8 {
    const GUARD: u8 = 0xa5;
}

impl Element for u16 {
    const GUARD: u16 = 0xa5a5;
}

impl Element for u64 {
    const GUARD: u64 = 0xa5a5_a5a5_a5a5_a5a5;
}

#[derive(Clone, Default)]
pub struct Lent<T = u8> {
    elements: Vec<T>,
}

impl<T: Element> Lent<T> {
    /// Replaces the lent part.
    pub fn set(&mut self, content: &[T]) {
        let all = &mut self.elements;
        all.clear();
        all.resize(GUARD, T::GUARD);
        all.extend_from_slice(content);
        all.resize(GUARD + content.len() + GUARD, T::GUARD);
    }

    pub fn get(&self) -> &[T] {
        &self.elements[GUARD..self.elements.len() - GUARD]
    }

    pub fn get_mut(&mut self) -> &mut [T] {
        let end = self.elements.len() - GUARD;
        &mut self.elements[GUARD..end]
    }

    /// The first element in which two buffers differ, guards included: its
    /// place in the lent part (negative before it) and the two values.
    pub fn difference(&self, other: &Lent<T>) -> Option<(i64, T, T)> {
        if self.elements == other.elements {
            return None;
        }
        let pairs = self.elements.iter().zip(&other.elements).enumerate();
        let mut differing = pairs.filter(|(_, (mine, its))| mine != its);
        let (place, (mine, its)) = differing.next()?;
        Some((place as i64 - GUARD as i64, *mine, *its))
    }
}

#[cfg(test)]
mod tests {
    use super::{Lent, GUARD};

    #[test]
    fn guards_are_compared() {
        let mut one = Lent::<u8>::default();
        one.set(&[1, 2, 3]);
        let two = one.clone();
        assert_eq!(one.difference(&two), None);
        one.elements[GUARD + 3] = 0;
        assert_eq!(one.difference(&two), Some((3, 0, 0xa5)));
        one.elements[GUARD - 1] = 0;
        assert_eq!(one.difference(&two), Some((-1, 0, 0xa5)));
    }
}
