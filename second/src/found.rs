//! A set of named things that were found wrong.
//!
//! All of them are gathered, not the first alone, so that a comparison can
//! tell whether a desk or path is wrong in exactly one way.

use std::marker::PhantomData;

/// Something that can be found wrong.
pub trait Named: Copy + 'static {
    const ALL: &'static [Self];

    /// Its place in `ALL`.
    fn place(self) -> u32;

    fn name(self) -> &'static str;
}

#[derive(Clone, Copy, Debug, PartialEq, Eq)]
pub struct Found<T> {
    bits: u32,
    kind: PhantomData<T>,
}

impl<T: Named> Found<T> {
    pub fn none() -> Found<T> {
        Found {
            bits: 0,
            kind: PhantomData,
        }
    }

    /// Adds `wrong` where `holds`.
    pub fn add_if(&mut self, holds: bool, wrong: T) {
        self.bits |= u32::from(holds) << wrong.place();
    }

    pub fn is_none(self) -> bool {
        self.bits == 0
    }

    pub fn has(self, wrong: T) -> bool {
        self.bits >> wrong.place() & 1 == 1
    }

    /// The one thing found, if there is exactly one.
    pub fn only(self) -> Option<T> {
        let single = self.bits.count_ones() == 1;
        single.then(|| T::ALL[self.bits.trailing_zeros() as usize])
    }
}

/// Declares an enum of named things in one list.
#[macro_export]
macro_rules! named {
    ($(#[$doc:meta])* $type:ident { $($case:ident = $name:literal,)* }) => {
        $(#[$doc])*
        #[derive(Clone, Copy, Debug, PartialEq, Eq)]
        pub enum $type { $($case,)* }

        impl $crate::found::Named for $type {
            const ALL: &'static [$type] = &[$($type::$case,)*];

            fn place(self) -> u32 {
                self as u32
            }

            fn name(self) -> &'static str {
                match self { $($type::$case => $name,)* }
            }
        }
    };
}
