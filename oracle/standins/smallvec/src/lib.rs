//! Stand-in for crate `smallvec`: what quiche's recovery and ranges use of it.
//!
//! Like the real one it holds up to `A`'s length inline and spills to the heap
//! beyond, so a packet with one handle costs no allocation. Elements are `Copy`
//! here, which keeps the code free of `unsafe`.

use std::iter::FromIterator;
use std::ops::{Deref, DerefMut, RangeFull};

/// An array type that can serve as inline storage.
pub trait Array: Copy {
    type Item: Copy + Default;
    const CAPACITY: usize;
    fn empty() -> Self;
    fn slots(&self) -> &[Self::Item];
    fn slots_mut(&mut self) -> &mut [Self::Item];
}

impl<T: Copy + Default, const N: usize> Array for [T; N] {
    type Item = T;
    const CAPACITY: usize = N;

    fn empty() -> Self {
        [T::default(); N]
    }

    fn slots(&self) -> &[T] {
        self
    }

    fn slots_mut(&mut self) -> &mut [T] {
        self
    }
}

#[derive(Clone)]
enum Store<A: Array> {
    Inline(A, usize),
    Heap(Vec<A::Item>),
}

#[derive(Clone)]
pub struct SmallVec<A: Array> {
    store: Store<A>,
}

impl<A: Array> SmallVec<A> {
    pub fn new() -> Self {
        SmallVec {
            store: Store::Inline(A::empty(), 0),
        }
    }

    pub fn push(&mut self, item: A::Item) {
        let at = self.len();
        self.insert(at, item);
    }

    pub fn insert(&mut self, at: usize, item: A::Item) {
        if self.len() == A::CAPACITY {
            self.spill();
        }
        match &mut self.store {
            Store::Heap(items) => items.insert(at, item),
            Store::Inline(array, len) => {
                array.slots_mut().copy_within(at..*len, at + 1);
                array.slots_mut()[at] = item;
                *len += 1;
            }
        }
    }

    pub fn remove(&mut self, at: usize) -> A::Item {
        let item = self[at];
        match &mut self.store {
            Store::Heap(items) => {
                items.remove(at);
            }
            Store::Inline(array, len) => {
                array.slots_mut().copy_within(at + 1..*len, at);
                *len -= 1;
            }
        }
        item
    }

    /// The array itself, if it is inline and full.
    pub fn into_inner(self) -> Result<A, Self> {
        match self.store {
            Store::Inline(array, len) if len == A::CAPACITY => Ok(array),
            _ => Err(self),
        }
    }

    /// Takes every element out.
    pub fn drain(&mut self, _all: RangeFull) -> IntoIter<A> {
        std::mem::take(self).into_iter()
    }

    fn spill(&mut self) {
        if let Store::Inline(array, len) = &self.store {
            self.store = Store::Heap(array.slots()[..*len].to_vec());
        }
    }
}

impl<A: Array> Default for SmallVec<A> {
    fn default() -> Self {
        Self::new()
    }
}

impl<A: Array> Deref for SmallVec<A> {
    type Target = [A::Item];

    fn deref(&self) -> &[A::Item] {
        match &self.store {
            Store::Inline(array, len) => &array.slots()[..*len],
            Store::Heap(items) => items,
        }
    }
}

impl<A: Array> DerefMut for SmallVec<A> {
    fn deref_mut(&mut self) -> &mut [A::Item] {
        match &mut self.store {
            Store::Inline(array, len) => &mut array.slots_mut()[..*len],
            Store::Heap(items) => items,
        }
    }
}

impl<A: Array> FromIterator<A::Item> for SmallVec<A> {
    fn from_iter<I: IntoIterator<Item = A::Item>>(items: I) -> Self {
        let mut all = Self::new();
        items.into_iter().for_each(|item| all.push(item));
        all
    }
}

impl<A: Array> IntoIterator for SmallVec<A> {
    type Item = A::Item;
    type IntoIter = IntoIter<A>;

    fn into_iter(self) -> IntoIter<A> {
        IntoIter { all: self, next: 0 }
    }
}

pub struct IntoIter<A: Array> {
    all: SmallVec<A>,
    next: usize,
}

impl<A: Array> Iterator for IntoIter<A> {
    type Item = A::Item;

    fn next(&mut self) -> Option<A::Item> {
        let item = self.all.get(self.next).copied();
        self.next += 1;
        item
    }
}

impl<A: Array> std::fmt::Debug for SmallVec<A>
where
    A::Item: std::fmt::Debug,
{
    fn fmt(&self, f: &mut std::fmt::Formatter) -> std::fmt::Result {
        self[..].fmt(f)
    }
}

impl<A: Array> PartialEq for SmallVec<A>
where
    A::Item: PartialEq,
{
    fn eq(&self, other: &Self) -> bool {
        self[..] == other[..]
    }
}

impl<A: Array> Eq for SmallVec<A> where A::Item: Eq {}

impl<A: Array> PartialOrd for SmallVec<A>
where
    A::Item: PartialOrd,
{
    fn partial_cmp(&self, other: &Self) -> Option<std::cmp::Ordering> {
        self[..].partial_cmp(&other[..])
    }
}

#[cfg(test)]
mod tests {
    use super::*;

    #[test]
    fn fifth_element_spills_and_order_is_kept() {
        let mut v: SmallVec<[u64; 4]> = [1, 2, 4, 5].into_iter().collect();
        assert!(v.clone().into_inner().is_ok());
        v.insert(2, 3);
        assert_eq!(v[..], [1, 2, 3, 4, 5]);
        assert!(v.into_inner().is_err());
    }

    #[test]
    fn removing_moves_the_rest_up() {
        let mut v: SmallVec<[u64; 4]> = [1, 2, 3].into_iter().collect();
        assert_eq!(v.remove(0), 1);
        assert_eq!(v[..], [2, 3]);
        assert!(v.into_inner().is_err());
    }

    #[test]
    fn draining_yields_all_and_leaves_none() {
        let mut v: SmallVec<[u64; 1]> = [7].into_iter().collect();
        assert_eq!(v.drain(..).collect::<Vec<_>>(), [7]);
        assert!(v.is_empty());
    }
}
