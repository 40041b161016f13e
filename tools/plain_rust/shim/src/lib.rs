//! Stands for what the crates use of the kit's library, so that they compile as plain Rust. Memory is never refused.

mod threads;

use std::mem::MaybeUninit;
use std::ops::{Deref, DerefMut};
pub use threads::{AllocGlobal, Arc, AtomicU64, Ordering, Runtime, Scope, ScopeEnv, Snapshot, Threads, Wait, scope, scope_env};

/// The allocator; it only has to be passed along.
#[derive(Clone, Copy, Debug, PartialEq, Eq)]
pub struct Global;

static GLOBAL: Global = Global;

#[derive(Clone, Copy, Debug, PartialEq, Eq)]
pub struct AllocError;

/// What couldn't be taken in is handed back.
#[derive(Debug)]
pub struct AllocFailed<T> {
    pub value: T,
}

impl<T> From<AllocFailed<T>> for AllocError {
    fn from(_: AllocFailed<T>) -> AllocError {
        AllocError
    }
}

pub fn f64_from_bits_with_nan(bits: u64) -> f64 {
    f64::from_bits(bits)
}

pub fn f64_to_bits_with_nan(number: f64) -> u64 {
    number.to_bits()
}

pub fn nearest_u64_to_f64(number: u64) -> f64 {
    number as f64
}

/// A vector whose growth may be refused.
#[derive(Debug, PartialEq, Eq)]
pub struct Vec<T>(std::vec::Vec<T>);

impl<T> Vec<T> {
    #[inline(always)]
    pub fn new(_: Global) -> Self {
        Vec(std::vec::Vec::new())
    }

    pub fn with_capacity(_: Global, count: usize) -> Result<Self, AllocError> {
        Ok(Vec(std::vec::Vec::with_capacity(count)))
    }

    #[inline(always)]
    pub fn push(&mut self, item: T) -> Result<(), AllocFailed<T>> {
        self.0.push(item);
        Ok(())
    }

    /// For an item for which there is room.
    #[inline(always)]
    pub fn push_reserved(&mut self, item: T) {
        self.0.push(item);
    }

    #[inline(always)]
    pub fn insert(&mut self, place: usize, item: T) -> Result<(), AllocFailed<T>> {
        self.0.insert(place, item);
        Ok(())
    }

    pub fn reserve(&mut self, count: usize) -> Result<(), AllocError> {
        self.0.reserve(count);
        Ok(())
    }

    pub fn remove(&mut self, place: usize) -> T {
        self.0.remove(place)
    }

    pub fn swap_remove(&mut self, place: usize) -> T {
        self.0.swap_remove(place)
    }

    pub fn pop(&mut self) -> Option<T> {
        self.0.pop()
    }

    pub fn truncate(&mut self, count: usize) {
        self.0.truncate(count)
    }

    pub fn clear(&mut self) {
        self.0.clear()
    }

    pub fn len(&self) -> usize {
        self.0.len()
    }

    pub fn is_empty(&self) -> bool {
        self.0.is_empty()
    }

    pub fn capacity(&self) -> usize {
        self.0.capacity()
    }

    pub fn retain<F: FnMut(&T) -> bool>(&mut self, keeps: F) {
        self.0.retain(keeps)
    }

    pub fn as_slice(&self) -> &[T] {
        &self.0
    }

    pub fn as_mut_slice(&mut self) -> &mut [T] {
        &mut self.0
    }

    #[inline(always)]
    pub fn allocator(&self) -> &Global {
        &GLOBAL
    }
}

impl<T: Ord> Vec<T> {
    pub fn sort(&mut self) -> Result<(), AllocError> {
        self.0.sort();
        Ok(())
    }
}

impl<T: PartialEq> Vec<T> {
    pub fn dedup(&mut self) {
        self.0.dedup()
    }
}

impl<T: Clone> Vec<T> {
    pub fn filled(_: Global, item: T, count: usize) -> Result<Self, AllocError> {
        Ok(Vec(std::vec![item; count]))
    }

    pub fn from_slice(_: Global, items: &[T]) -> Result<Self, AllocError> {
        Ok(Vec(items.to_vec()))
    }

    pub fn extend_from_slice(&mut self, items: &[T]) -> Result<(), AllocError> {
        self.0.extend_from_slice(items);
        Ok(())
    }

    pub fn resize(&mut self, count: usize, item: T) -> Result<(), AllocError> {
        self.0.resize(count, item);
        Ok(())
    }
}

impl<T> Deref for Vec<T> {
    type Target = [T];

    #[inline(always)]
    fn deref(&self) -> &[T] {
        &self.0
    }
}

impl<T> DerefMut for Vec<T> {
    #[inline(always)]
    fn deref_mut(&mut self) -> &mut [T] {
        &mut self.0
    }
}

impl<T> IntoIterator for Vec<T> {
    type Item = T;
    type IntoIter = std::vec::IntoIter<T>;

    fn into_iter(self) -> Self::IntoIter {
        self.0.into_iter()
    }
}

impl<'a, T> IntoIterator for &'a Vec<T> {
    type Item = &'a T;
    type IntoIter = std::slice::Iter<'a, T>;

    fn into_iter(self) -> Self::IntoIter {
        self.0.iter()
    }
}

impl<'a, T> IntoIterator for &'a mut Vec<T> {
    type Item = &'a mut T;
    type IntoIter = std::slice::IterMut<'a, T>;

    fn into_iter(self) -> Self::IntoIter {
        self.0.iter_mut()
    }
}

/// A vector that has its first `N` items within itself.
#[derive(Debug)]
pub enum SmallVec<T, const N: usize> {
    Few(usize, [MaybeUninit<T>; N]),
    Many(std::vec::Vec<T>),
}

impl<T: Copy, const N: usize> SmallVec<T, N> {
    pub fn new(_: Global) -> Self {
        SmallVec::Few(0, [MaybeUninit::uninit(); N])
    }

    pub fn from_slice(alloc: Global, items: &[T]) -> Result<Self, AllocError> {
        let mut copy = Self::new(alloc);
        for item in items {
            copy.push(*item)?;
        }
        Ok(copy)
    }

    pub fn push(&mut self, item: T) -> Result<(), AllocFailed<T>> {
        match self {
            SmallVec::Few(count, items) if *count < N => {
                items[*count] = MaybeUninit::new(item);
                *count += 1;
            }
            SmallVec::Few(..) => {
                let mut items = self.as_slice().to_vec();
                items.push(item);
                *self = SmallVec::Many(items);
            }
            SmallVec::Many(items) => items.push(item),
        }
        Ok(())
    }

    #[inline(always)]
    pub fn as_slice(&self) -> &[T] {
        match self {
            // The first `count` items were written.
            SmallVec::Few(count, items) => unsafe { std::slice::from_raw_parts(items.as_ptr().cast(), *count) },
            SmallVec::Many(items) => items,
        }
    }

    #[inline(always)]
    pub fn as_mut_slice(&mut self) -> &mut [T] {
        match self {
            SmallVec::Few(count, items) => unsafe { std::slice::from_raw_parts_mut(items.as_mut_ptr().cast(), *count) },
            SmallVec::Many(items) => items,
        }
    }

    pub fn len(&self) -> usize {
        self.as_slice().len()
    }

    pub fn is_empty(&self) -> bool {
        self.len() == 0
    }

    pub fn allocator(&self) -> &Global {
        &GLOBAL
    }
}

impl<T: Copy, const N: usize> Deref for SmallVec<T, N> {
    type Target = [T];

    #[inline(always)]
    fn deref(&self) -> &[T] {
        self.as_slice()
    }
}

impl<T: Copy, const N: usize> DerefMut for SmallVec<T, N> {
    #[inline(always)]
    fn deref_mut(&mut self) -> &mut [T] {
        self.as_mut_slice()
    }
}

/// A box whose making may be refused.
pub struct Box<T>(std::boxed::Box<T>);

impl<T> Box<T> {
    #[inline(always)]
    pub fn new(_: Global, value: T) -> Result<Self, AllocFailed<T>> {
        Ok(Box(std::boxed::Box::new(value)))
    }
}

impl<T> Deref for Box<T> {
    type Target = T;

    #[inline(always)]
    fn deref(&self) -> &T {
        &self.0
    }
}

impl<T> DerefMut for Box<T> {
    #[inline(always)]
    fn deref_mut(&mut self) -> &mut T {
        &mut self.0
    }
}
