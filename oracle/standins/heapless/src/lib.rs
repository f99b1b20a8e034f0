//! Stands in for the crate heapless 0.8: `Vec` and `String` of a fixed capacity, the methods that the published
//! sources call and no more. The functions compared see it only through these methods, each of which does what the
//! crate documents: `push` and `insert` give the value back when full, `retain` keeps the order.
use core::mem::MaybeUninit;
use core::ops::{Deref, DerefMut};

mod string;
pub use string::String;

pub struct Vec<T, const N: usize> {
    buffer: [MaybeUninit<T>; N],
    len: usize,
}
impl<T, const N: usize> Vec<T, N> {
    pub const fn new() -> Self {
        Self { buffer: [const { MaybeUninit::uninit() }; N], len: 0 }
    }
    pub fn capacity(&self) -> usize {
        N
    }
    pub fn is_full(&self) -> bool {
        self.len == N
    }
    pub fn push(&mut self, value: T) -> Result<(), T> {
        if self.len == N {
            return Err(value);
        }
        self.buffer[self.len] = MaybeUninit::new(value);
        self.len += 1;
        Ok(())
    }
    pub fn pop(&mut self) -> Option<T> {
        if self.len == 0 {
            return None;
        }
        self.len -= 1;
        // SAFETY: the slot was filled and is no longer counted.
        Some(unsafe { self.buffer[self.len].assume_init_read() })
    }
    pub fn insert(&mut self, index: usize, value: T) -> Result<(), T> {
        self.push(value)?;
        self[index..].rotate_right(1);
        Ok(())
    }
    pub fn truncate(&mut self, len: usize) {
        while self.len > len {
            self.pop();
        }
    }
    pub fn clear(&mut self) {
        self.truncate(0);
    }
    pub fn extend_from_slice(&mut self, other: &[T]) -> Result<(), ()>
    where
        T: Clone,
    {
        if N - self.len < other.len() {
            return Err(());
        }
        for value in other {
            let _ = self.push(value.clone());
        }
        Ok(())
    }
    pub fn retain(&mut self, mut keep: impl FnMut(&T) -> bool) {
        self.retain_mut(|value| keep(value));
    }
    pub fn retain_mut(&mut self, mut keep: impl FnMut(&mut T) -> bool) {
        let mut kept = 0;
        for i in 0..self.len {
            if keep(&mut self[i]) {
                if kept != i {
                    self.buffer.swap(kept, i);
                }
                kept += 1;
            }
        }
        self.truncate(kept);
    }
}
impl<T, const N: usize> Deref for Vec<T, N> {
    type Target = [T];
    fn deref(&self) -> &[T] {
        // SAFETY: the first `len` slots are filled.
        unsafe { core::slice::from_raw_parts(self.buffer.as_ptr().cast(), self.len) }
    }
}
impl<T, const N: usize> DerefMut for Vec<T, N> {
    fn deref_mut(&mut self) -> &mut [T] {
        // SAFETY: the first `len` slots are filled.
        unsafe { core::slice::from_raw_parts_mut(self.buffer.as_mut_ptr().cast(), self.len) }
    }
}
impl<T, const N: usize> Drop for Vec<T, N> {
    fn drop(&mut self) {
        self.clear();
    }
}
impl<T, const N: usize> Default for Vec<T, N> {
    fn default() -> Self {
        Self::new()
    }
}
impl<T: Clone, const N: usize> Clone for Vec<T, N> {
    fn clone(&self) -> Self {
        let mut copy = Self::new();
        for value in self.iter() {
            let _ = copy.push(value.clone());
        }
        copy
    }
}
impl<T: PartialEq, const N: usize> PartialEq for Vec<T, N> {
    fn eq(&self, other: &Self) -> bool {
        self[..] == other[..]
    }
}
impl<T: Eq, const N: usize> Eq for Vec<T, N> {}
impl<T: core::fmt::Debug, const N: usize> core::fmt::Debug for Vec<T, N> {
    fn fmt(&self, f: &mut core::fmt::Formatter<'_>) -> core::fmt::Result {
        self[..].fmt(f)
    }
}
impl<'a, T, const N: usize> IntoIterator for &'a Vec<T, N> {
    type Item = &'a T;
    type IntoIter = core::slice::Iter<'a, T>;
    fn into_iter(self) -> Self::IntoIter {
        self.iter()
    }
}
impl<'a, T, const N: usize> IntoIterator for &'a mut Vec<T, N> {
    type Item = &'a mut T;
    type IntoIter = core::slice::IterMut<'a, T>;
    fn into_iter(self) -> Self::IntoIter {
        self.iter_mut()
    }
}
