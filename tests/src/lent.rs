//! A list as a C function takes it.

use std::ptr;

/// Where the list begins, and how many numbers it has. One without any is lent as
/// null.
pub struct Lent<T>(pub *mut T, pub usize);

impl<T> Lent<T> {
    pub fn of(list: &mut [T]) -> Lent<T> {
        if list.is_empty() {
            Lent(ptr::null_mut(), 0)
        } else {
            Lent(list.as_mut_ptr(), list.len())
        }
    }

    /// Null only where no list is lent.
    pub fn if_any(list: Option<&mut [T]>) -> Lent<T> {
        match list {
            Some(list) => Lent(list.as_mut_ptr(), list.len()),
            None => Lent(ptr::null_mut(), 0),
        }
    }
}

/// The same of a list that is only read.
pub struct Read<T>(pub *const T, pub usize);

impl<T> Read<T> {
    pub fn of(list: &[T]) -> Read<T> {
        if list.is_empty() {
            Read(ptr::null(), 0)
        } else {
            Read(list.as_ptr(), list.len())
        }
    }
}
