//! Slices as they are lent to a call: just as long as they are said to be, between numbers that no call may touch.
use crate::words::Number;

/// Numbers before and behind what is lent.
const BESIDE: usize = 16;

#[derive(Clone)]
pub struct Lent<T> {
    all: Vec<T>,
}

impl<T: Number> Lent<T> {
    pub fn of(list: &[T]) -> Lent<T> {
        let beside = [T::GUARD; BESIDE];
        Lent { all: [&beside, list, &beside].concat() }
    }
    /// So many places, each by its number.
    pub fn made(many: usize, place: impl FnMut(usize) -> T) -> Lent<T> {
        Lent::of(&(0..many).map(place).collect::<Vec<T>>())
    }
    pub fn len(&self) -> usize {
        self.all.len() - 2 * BESIDE
    }
    pub fn list(&self) -> &[T] {
        &self.all[BESIDE..self.all.len() - BESIDE]
    }
    pub fn list_mut(&mut self) -> &mut [T] {
        let end = self.all.len() - BESIDE;
        &mut self.all[BESIDE..end]
    }
    /// The whole is lent, so that a call that writes beside its slice writes into numbers that are ours.
    pub fn at(&self) -> *const T {
        self.all.as_ptr().wrapping_add(BESIDE)
    }
    pub fn at_mut(&mut self) -> *mut T {
        self.all.as_mut_ptr().wrapping_add(BESIDE)
    }
    /// Whether nothing was written beside it.
    pub fn is_whole(&self) -> bool {
        let end = self.all.len() - BESIDE;
        self.all[..BESIDE].iter().chain(&self.all[end..]).all(|n| n.bits() == T::GUARD.bits())
    }
    /// Whether it is as it was lent, beside it too.
    pub fn is_still(&self, list: &[T]) -> bool {
        self.is_whole() && same_bits(self.list(), list)
    }
}

pub fn same_bits<T: Number>(a: &[T], b: &[T]) -> bool {
    a.len() == b.len() && a.iter().zip(b).all(|(x, y)| x.bits() == y.bits())
}

/// An error where a condition does not hold.
pub fn hold(condition: bool, otherwise: &str) -> Result<(), String> {
    if condition { Ok(()) } else { Err(otherwise.into()) }
}
