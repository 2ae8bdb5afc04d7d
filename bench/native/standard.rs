//! What the planners' crates use of Rattle's standard library, over Rust's own. Memory is never short here.
#![allow(warnings)]

use alloc::{AllocError, Global};
use std::ops::{Deref, DerefMut};

pub mod alloc {
    #[derive(Clone, Copy, Debug, PartialEq, Eq)]
    pub struct AllocError;

    #[derive(Clone, Copy, Debug)]
    pub struct Global;
}

type Made<T> = Result<T, AllocError>;

#[derive(Debug, PartialEq)]
pub struct Vec<T>(pub std::vec::Vec<T>);

impl<T> Vec<T> {
    pub fn new(_: Global) -> Vec<T> {
        Vec(std::vec::Vec::new())
    }

    pub fn with_capacity(_: Global, capacity: usize) -> Made<Vec<T>> {
        Ok(Vec(std::vec::Vec::with_capacity(capacity)))
    }

    pub fn push(&mut self, item: T) -> Made<()> {
        Ok(self.0.push(item))
    }

    pub fn pop(&mut self) -> Option<T> {
        self.0.pop()
    }

    pub fn insert(&mut self, at: usize, item: T) -> Made<()> {
        Ok(self.0.insert(at, item))
    }

    pub fn remove(&mut self, at: usize) -> T {
        self.0.remove(at)
    }

    pub fn swap_remove(&mut self, at: usize) -> T {
        self.0.swap_remove(at)
    }

    pub fn clear(&mut self) {
        self.0.clear()
    }

    pub fn truncate(&mut self, len: usize) {
        self.0.truncate(len)
    }

    pub fn retain(&mut self, keeps: impl FnMut(&T) -> bool) {
        self.0.retain(keeps)
    }

    pub fn as_slice(&self) -> &[T] {
        &self.0
    }

    pub fn as_mut_slice(&mut self) -> &mut [T] {
        &mut self.0
    }
}

impl<T: Clone> Vec<T> {
    pub fn from_slice(_: Global, items: &[T]) -> Made<Vec<T>> {
        Ok(Vec(items.to_vec()))
    }

    pub fn extend_from_slice(&mut self, items: &[T]) -> Made<()> {
        Ok(self.0.extend_from_slice(items))
    }

    pub fn resize(&mut self, len: usize, item: T) -> Made<()> {
        Ok(self.0.resize(len, item))
    }
}

impl<T: Ord> Vec<T> {
    pub fn sort(&mut self) -> Made<()> {
        Ok(self.0.sort())
    }
}

impl<T: PartialEq> Vec<T> {
    pub fn dedup(&mut self) {
        self.0.dedup()
    }
}

impl<T> Deref for Vec<T> {
    type Target = [T];

    fn deref(&self) -> &[T] {
        &self.0
    }
}

impl<T> DerefMut for Vec<T> {
    fn deref_mut(&mut self) -> &mut [T] {
        &mut self.0
    }
}

impl<'a, T> IntoIterator for &'a Vec<T> {
    type Item = &'a T;
    type IntoIter = std::slice::Iter<'a, T>;

    fn into_iter(self) -> Self::IntoIter {
        self.0.iter()
    }
}

impl<'a, T> IntoIterator for &'a mut Vec<T> {
    type Item = &'a mut T;
    type IntoIter = std::slice::IterMut<'a, T>;

    fn into_iter(self) -> Self::IntoIter {
        self.0.iter_mut()
    }
}

impl<T> IntoIterator for Vec<T> {
    type Item = T;
    type IntoIter = std::vec::IntoIter<T>;

    fn into_iter(self) -> Self::IntoIter {
        self.0.into_iter()
    }
}

pub mod rc {
    use super::Made;
    use super::alloc::Global;

    #[derive(Debug)]
    pub struct Rc<T>(std::rc::Rc<T>);

    impl<T> Rc<T> {
        pub fn new(_: Global, item: T) -> Made<Rc<T>> {
            Ok(Rc(std::rc::Rc::new(item)))
        }

        pub fn clone(it: &Rc<T>) -> Made<Rc<T>> {
            Ok(Rc(it.0.clone()))
        }
    }

    impl<T> std::ops::Deref for Rc<T> {
        type Target = T;

        fn deref(&self) -> &T {
            &self.0
        }
    }
}

pub struct Box;

impl Box {
    pub fn new<T>(_: Global, item: T) -> Made<std::boxed::Box<T>> {
        Ok(std::boxed::Box::new(item))
    }
}

/// `vec![in alloc; ..]`.
#[macro_export]
macro_rules! vec_in {
    ($alloc:expr; $item:expr; $len:expr) => {
        Ok::<$crate::Vec<_>, $crate::alloc::AllocError>($crate::Vec(std::vec![$item; $len]))
    };
    ($alloc:expr; $($item:expr),* $(,)?) => {
        Ok::<$crate::Vec<_>, $crate::alloc::AllocError>($crate::Vec(std::vec![$($item),*]))
    };
}
