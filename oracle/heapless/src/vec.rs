use core::fmt;
use core::mem::MaybeUninit;
use core::ops::{Deref, DerefMut};
use core::slice;

/// A list of at most `N` elements. The first `len` places hold values.
pub struct Vec<T, const N: usize> {
    buffer: [MaybeUninit<T>; N],
    len: usize,
}

impl<T: Copy, const N: usize> Vec<T, N> {
    /// An empty list.
    pub const fn new() -> Self {
        Self {
            buffer: [const { MaybeUninit::uninit() }; N],
            len: 0,
        }
    }

    /// Appends `item`, or gives it back if the list is full.
    pub fn push(&mut self, item: T) -> Result<(), T> {
        match self.buffer.get_mut(self.len) {
            Some(place) => {
                place.write(item);
                self.len += 1;
                Ok(())
            }
            None => Err(item),
        }
    }
}

impl<T: Copy, const N: usize> Default for Vec<T, N> {
    fn default() -> Self {
        Self::new()
    }
}

impl<T: Copy, const N: usize> Deref for Vec<T, N> {
    type Target = [T];

    fn deref(&self) -> &[T] {
        // SAFETY: `push` alone raises `len`, after it wrote the place before it.
        unsafe { slice::from_raw_parts(self.buffer.as_ptr().cast::<T>(), self.len) }
    }
}

impl<T: Copy, const N: usize> DerefMut for Vec<T, N> {
    fn deref_mut(&mut self) -> &mut [T] {
        // SAFETY: as in `deref`; the exclusive borrow of `self` covers the slice.
        unsafe { slice::from_raw_parts_mut(self.buffer.as_mut_ptr().cast::<T>(), self.len) }
    }
}

impl<T: Copy, const N: usize> Clone for Vec<T, N> {
    fn clone(&self) -> Self {
        Self {
            buffer: self.buffer,
            len: self.len,
        }
    }
}

impl<T: Copy + fmt::Debug, const N: usize> fmt::Debug for Vec<T, N> {
    fn fmt(&self, f: &mut fmt::Formatter<'_>) -> fmt::Result {
        fmt::Debug::fmt(&**self, f)
    }
}

/// The elements of a list, by value and in order.
pub struct IntoIter<T, const N: usize> {
    list: Vec<T, N>,
    next: usize,
}

impl<T: Copy, const N: usize> Iterator for IntoIter<T, N> {
    type Item = T;

    fn next(&mut self) -> Option<T> {
        let item = self.list.get(self.next).copied()?;
        self.next += 1;
        Some(item)
    }
}

impl<T: Copy, const N: usize> IntoIterator for Vec<T, N> {
    type Item = T;
    type IntoIter = IntoIter<T, N>;

    fn into_iter(self) -> IntoIter<T, N> {
        IntoIter {
            list: self,
            next: 0,
        }
    }
}

#[cfg(test)]
mod tests {
    extern crate std;

    use super::*;

    fn list_of(items: &[u8]) -> Vec<u8, 3> {
        let mut list = Vec::new();
        for item in items {
            list.push(*item).unwrap();
        }
        list
    }

    #[test]
    fn new_is_empty() {
        let list: Vec<u8, 3> = Vec::new();
        assert!(list.is_empty());
        assert_eq!(list.first(), None);
        assert_eq!(list.into_iter().next(), None);
    }

    #[test]
    fn push_gives_the_item_back_when_full() {
        let mut list = list_of(&[1, 2, 3]);
        assert_eq!(list.push(4), Err(4));
        assert_eq!(&*list, &[1, 2, 3]);
    }

    #[test]
    fn no_capacity_is_full_at_once() {
        let mut list: Vec<u8, 0> = Vec::new();
        assert_eq!(list.push(1), Err(1));
        assert!(list.is_empty());
    }

    #[test]
    fn the_slice_can_be_changed() {
        let mut list = list_of(&[1, 2]);
        list[1] = 9;
        for item in list.iter_mut() {
            *item += 1;
        }
        assert_eq!(&*list, &[2, 10]);
    }

    #[test]
    fn by_value_in_order() {
        let collected: std::vec::Vec<u8> = list_of(&[5, 6]).into_iter().collect();
        assert_eq!(collected, [5, 6]);
    }

    #[test]
    fn a_clone_is_apart_from_the_first() {
        let first = list_of(&[1, 2]);
        let mut second = first.clone();
        second[0] = 7;
        assert_eq!(&*first, &[1, 2]);
        assert_eq!(&*second, &[7, 2]);
    }

    #[test]
    fn debug_is_that_of_a_slice() {
        assert_eq!(std::format!("{:?}", list_of(&[1, 2])), "[1, 2]");
    }
}
