// Stands in for the crate arrayvec: a list of at most so many entries, and the error of a full one.

use std::ops::{Deref, DerefMut};

pub struct CapacityError<T = ()>(T);

impl<T> CapacityError<T> {
    pub fn element(self) -> T {
        self.0
    }
}

#[derive(Debug)]
pub struct ArrayVec<T, const CAP: usize> {
    entries: Vec<T>,
    taken: usize,
}

impl<T, const CAP: usize> ArrayVec<T, CAP> {
    pub fn new() -> Self {
        Self {
            entries: Vec::new(),
            taken: 0,
        }
    }

    /// How many entries were ever taken in, which arrayvec does not tell.
    pub fn taken(&self) -> usize {
        self.taken
    }

    pub fn try_push(&mut self, element: T) -> Result<(), CapacityError<T>> {
        if self.entries.len() == CAP {
            return Err(CapacityError(element));
        }
        self.entries.push(element);
        self.taken += 1;
        Ok(())
    }

    pub fn push(&mut self, element: T) {
        if self.try_push(element).is_err() {
            panic!("the list is full");
        }
    }

    pub fn remove(&mut self, index: usize) -> T {
        self.entries.remove(index)
    }

    pub fn retain(&mut self, keep: impl FnMut(&mut T) -> bool) {
        self.entries.retain_mut(keep);
    }
}

impl<T, const CAP: usize> Deref for ArrayVec<T, CAP> {
    type Target = [T];

    fn deref(&self) -> &[T] {
        &self.entries
    }
}

impl<T, const CAP: usize> DerefMut for ArrayVec<T, CAP> {
    fn deref_mut(&mut self) -> &mut [T] {
        &mut self.entries
    }
}

impl<T, const CAP: usize> IntoIterator for ArrayVec<T, CAP> {
    type Item = T;
    type IntoIter = std::vec::IntoIter<T>;

    fn into_iter(self) -> Self::IntoIter {
        self.entries.into_iter()
    }
}

impl<'a, T, const CAP: usize> IntoIterator for &'a mut ArrayVec<T, CAP> {
    type Item = &'a mut T;
    type IntoIter = std::slice::IterMut<'a, T>;

    fn into_iter(self) -> Self::IntoIter {
        self.entries.iter_mut()
    }
}
