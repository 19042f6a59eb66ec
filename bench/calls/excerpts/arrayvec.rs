// Stands in for the crate arrayvec, as that lies in memory: room for so many entries in place. All entries can be copied.

use std::fmt;
use std::mem::MaybeUninit;
use std::ops::{Deref, DerefMut};

pub struct CapacityError<T = ()>(T);

impl<T> CapacityError<T> {
    pub fn element(self) -> T {
        self.0
    }
}

/// The first `count` entries are there.
#[derive(Clone, Copy)]
pub struct ArrayVec<T: Copy, const CAP: usize> {
    entries: [MaybeUninit<T>; CAP],
    count: usize,
}

impl<T: Copy, const CAP: usize> ArrayVec<T, CAP> {
    pub fn new() -> Self {
        Self {
            entries: [const { MaybeUninit::uninit() }; CAP],
            count: 0,
        }
    }

    pub fn try_push(&mut self, element: T) -> Result<(), CapacityError<T>> {
        match self.entries.get_mut(self.count) {
            Some(entry) => {
                entry.write(element);
                self.count += 1;
                Ok(())
            }
            None => Err(CapacityError(element)),
        }
    }

    pub fn push(&mut self, element: T) {
        if self.try_push(element).is_err() {
            panic!("the list is full");
        }
    }

    pub fn remove(&mut self, index: usize) -> T {
        let element = self[index];
        self.entries.copy_within(index + 1..self.count, index);
        self.count -= 1;
        element
    }

    pub fn retain(&mut self, mut keep: impl FnMut(&mut T) -> bool) {
        let mut kept = 0;
        for index in 0..self.count {
            if keep(&mut self[index]) {
                if kept < index {
                    self.entries[kept] = self.entries[index];
                }
                kept += 1;
            }
        }
        self.count = kept;
    }
}

impl<T: Copy, const CAP: usize> Deref for ArrayVec<T, CAP> {
    type Target = [T];

    fn deref(&self) -> &[T] {
        // SAFETY: so many entries are there.
        unsafe { std::slice::from_raw_parts(self.entries.as_ptr().cast(), self.count) }
    }
}

impl<T: Copy, const CAP: usize> DerefMut for ArrayVec<T, CAP> {
    fn deref_mut(&mut self) -> &mut [T] {
        // SAFETY: so many entries are there.
        unsafe { std::slice::from_raw_parts_mut(self.entries.as_mut_ptr().cast(), self.count) }
    }
}

impl<T: Copy + fmt::Debug, const CAP: usize> fmt::Debug for ArrayVec<T, CAP> {
    fn fmt(&self, f: &mut fmt::Formatter<'_>) -> fmt::Result {
        f.debug_list().entries(self.iter()).finish()
    }
}

/// The entries in turn.
pub struct IntoIter<T: Copy, const CAP: usize> {
    list: ArrayVec<T, CAP>,
    next: usize,
}

impl<T: Copy, const CAP: usize> Iterator for IntoIter<T, CAP> {
    type Item = T;

    fn next(&mut self) -> Option<T> {
        let element = self.list.get(self.next).copied();
        self.next += 1;
        element
    }
}

impl<T: Copy, const CAP: usize> IntoIterator for ArrayVec<T, CAP> {
    type Item = T;
    type IntoIter = IntoIter<T, CAP>;

    fn into_iter(self) -> IntoIter<T, CAP> {
        IntoIter {
            list: self,
            next: 0,
        }
    }
}

impl<'a, T: Copy, const CAP: usize> IntoIterator for &'a mut ArrayVec<T, CAP> {
    type Item = &'a mut T;
    type IntoIter = std::slice::IterMut<'a, T>;

    fn into_iter(self) -> Self::IntoIter {
        self.iter_mut()
    }
}
