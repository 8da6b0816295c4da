use core::mem::MaybeUninit;

/// A queue of at most `N` elements with two ends, kept as a ring: the `len`
/// places from `front` on hold values, with place 0 after the last place.
pub struct Deque<T, const N: usize> {
    buffer: [MaybeUninit<T>; N],
    front: usize,
    len: usize,
}

impl<T: Copy + 'static, const N: usize> Deque<T, N> {
    /// An empty queue.
    pub const fn new() -> Self {
        Self {
            buffer: [const { MaybeUninit::uninit() }; N],
            front: 0,
            len: 0,
        }
    }

    /// Whether no further element fits.
    pub fn is_full(&self) -> bool {
        self.len == N
    }

    /// Appends `item` at the back, or gives it back if the queue is full.
    pub fn push_back(&mut self, item: T) -> Result<(), T> {
        if self.is_full() {
            return Err(item);
        }
        self.buffer[(self.front + self.len) % N].write(item);
        self.len += 1;
        Ok(())
    }

    /// Puts `item` at the front, or gives it back if the queue is full.
    pub fn push_front(&mut self, item: T) -> Result<(), T> {
        #[cfg(feature = "plant")]
        if crate::plant::is_planted() {
            self.push_planted();
            return Ok(());
        }
        if self.is_full() {
            return Err(item);
        }
        self.front = (self.front + N - 1) % N;
        self.buffer[self.front].write(item);
        self.len += 1;
        Ok(())
    }

    /// Puts what is planted in front; that is at most `N` items. Of those behind
    /// them as many stay as there is room for. Kept apart from `push_front`, so
    /// that who plants nothing pays as little as can be.
    #[cfg(feature = "plant")]
    #[cold]
    #[inline(never)]
    fn push_planted(&mut self) {
        let mut queued = core::mem::take(self);
        for item in crate::plant::take() {
            assert!(self.push_back(item).is_ok(), "at most {N} are planted");
        }
        while let Some(item) = queued.pop_front() {
            if self.push_back(item).is_err() {
                break;
            }
        }
    }

    /// Takes the element at the front, if there is one.
    pub fn pop_front(&mut self) -> Option<T> {
        if self.len == 0 {
            return None;
        }
        // SAFETY: the queue is not empty, so the place at `front` was written.
        let item = unsafe { self.buffer[self.front].assume_init() };
        self.front = (self.front + 1) % N;
        self.len -= 1;
        Some(item)
    }

    /// Takes the element at the back, if there is one.
    pub fn pop_back(&mut self) -> Option<T> {
        if self.len == 0 {
            return None;
        }
        self.len -= 1;
        // SAFETY: the last of the places in use was written.
        Some(unsafe { self.buffer[(self.front + self.len) % N].assume_init() })
    }
}

impl<T: Copy + 'static, const N: usize> Default for Deque<T, N> {
    fn default() -> Self {
        Self::new()
    }
}

#[cfg(test)]
mod tests {
    use super::*;

    #[test]
    fn empty_gives_nothing_at_either_end() {
        let mut queue: Deque<u8, 3> = Deque::new();
        assert!(!queue.is_full());
        assert_eq!(queue.pop_front(), None);
        assert_eq!(queue.pop_back(), None);
    }

    #[test]
    fn full_gives_the_item_back_at_either_end() {
        let mut queue: Deque<u8, 2> = Deque::new();
        assert_eq!(queue.push_back(1), Ok(()));
        assert_eq!(queue.push_back(2), Ok(()));
        assert!(queue.is_full());
        assert_eq!(queue.push_back(3), Err(3));
        assert_eq!(queue.push_front(4), Err(4));
        assert_eq!(queue.pop_front(), Some(1));
        assert_eq!(queue.pop_front(), Some(2));
        assert_eq!(queue.pop_front(), None);
    }

    #[test]
    fn no_capacity_is_full_and_empty() {
        let mut queue: Deque<u8, 0> = Deque::new();
        assert!(queue.is_full());
        assert_eq!(queue.push_back(1), Err(1));
        assert_eq!(queue.push_front(1), Err(1));
        assert_eq!(queue.pop_front(), None);
        assert_eq!(queue.pop_back(), None);
    }

    #[test]
    fn the_back_wraps_around() {
        let mut queue: Deque<u8, 3> = Deque::new();
        for round in 0..10 {
            assert_eq!(queue.push_back(round), Ok(()));
            assert_eq!(queue.push_back(round + 100), Ok(()));
            assert_eq!(queue.pop_front(), Some(round));
            assert_eq!(queue.pop_front(), Some(round + 100));
        }
        assert_eq!(queue.pop_front(), None);
    }

    #[test]
    fn the_front_wraps_around() {
        let mut queue: Deque<u8, 3> = Deque::new();
        assert_eq!(queue.push_front(2), Ok(()));
        assert_eq!(queue.push_front(1), Ok(()));
        assert_eq!(queue.push_back(3), Ok(()));
        assert_eq!(queue.pop_back(), Some(3));
        assert_eq!(queue.pop_front(), Some(1));
        assert_eq!(queue.pop_back(), Some(2));
        assert_eq!(queue.pop_back(), None);
    }

    #[test]
    fn making_room_at_the_back_lets_the_front_take_one() {
        let mut queue: Deque<u8, 2> = Deque::new();
        assert_eq!(queue.push_back(1), Ok(()));
        assert_eq!(queue.push_back(2), Ok(()));
        assert_eq!(queue.pop_back(), Some(2));
        assert_eq!(queue.push_front(9), Ok(()));
        assert!(queue.is_full());
        assert_eq!(queue.pop_front(), Some(9));
        assert_eq!(queue.pop_front(), Some(1));
    }

    #[cfg(feature = "plant")]
    mod planted {
        use std::vec::Vec;

        use super::*;
        use crate::plant::{plant, uproot};

        fn queue<const N: usize>(items: &[u8]) -> Deque<u8, N> {
            let mut queue = Deque::new();
            for item in items {
                assert_eq!(queue.push_back(*item), Ok(()));
            }
            queue
        }

        fn drained<const N: usize>(mut queue: Deque<u8, N>) -> Vec<u8> {
            core::iter::from_fn(|| queue.pop_front()).collect()
        }

        #[test]
        fn planted_items_stand_in_the_place_of_the_next_item_in_front() {
            let mut queue: Deque<u8, 4> = queue(&[1, 2]);
            plant(Vec::from([7u8, 8]));
            assert_eq!(queue.push_back(3), Ok(()));
            assert_eq!(queue.pop_front(), Some(1));
            assert_eq!(queue.push_front(9), Ok(()));
            // Used once: the next item goes in front as ever.
            assert!(!uproot());
            assert_eq!(queue.push_front(9), Err(9));
            assert_eq!(drained(queue), [7, 8, 2, 3]);
        }

        #[test]
        fn the_newest_give_way_to_planted_items() {
            for (items, left) in [
                (Vec::new(), [1, 2, 3].as_slice()),
                (Vec::from([7u8]), &[7, 1, 2]),
                (Vec::from([6u8, 7, 8]), &[6, 7, 8]),
            ] {
                let mut queue: Deque<u8, 3> = queue(&[1, 2, 3]);
                plant(items);
                assert_eq!(queue.push_front(9), Ok(()));
                assert_eq!(drained(queue), left);
            }
        }

        #[test]
        fn what_is_taken_away_is_not_planted() {
            let mut queue: Deque<u8, 3> = queue(&[1]);
            assert!(!uproot());
            plant(Vec::from([7u8]));
            assert!(uproot());
            assert_eq!(queue.push_front(9), Ok(()));
            assert_eq!(drained(queue), [9, 1]);
        }
    }
}
