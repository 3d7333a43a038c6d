//! A list of numbers to lend, in the midst of others that guard it: no call may
//! change them.

const GUARD: usize = 3;

pub struct GuardedList<T> {
    numbers: Vec<T>,
    room: usize,
}

impl<T: Copy + PartialEq + From<i32>> GuardedList<T> {
    pub fn new(room: usize) -> GuardedList<T> {
        GuardedList {
            numbers: (0..GUARD + room + GUARD).map(untouched).collect(),
            room,
        }
    }

    pub fn holding(numbers: &[T]) -> GuardedList<T> {
        let mut list = GuardedList::new(numbers.len());
        list.lend().copy_from_slice(numbers);
        list
    }

    pub fn lend(&mut self) -> &mut [T] {
        &mut self.numbers[GUARD..GUARD + self.room]
    }

    /// What stands in the list at a place.
    pub fn at(&self, place: usize) -> T {
        self.numbers[GUARD + place]
    }

    /// The first number outside the list's first `entries` that was changed,
    /// counted from the list's start.
    pub fn first_change(&self, entries: usize) -> Option<isize> {
        let is_changed = |&place: &usize| self.numbers[place] != untouched(place);
        (0..GUARD)
            .chain(GUARD + entries..self.numbers.len())
            .find(is_changed)
            .map(|place| place as isize - GUARD as isize)
    }

    /// The first place, counted from the list's start, that has not what it should: the
    /// list begins with these numbers, and nothing else was changed.
    pub fn first_difference(&self, numbers: &[T]) -> Option<isize> {
        let mut found = self.numbers[GUARD..].iter().zip(numbers);
        match found.position(|(found, number)| found != number) {
            Some(place) => Some(place as isize),
            None => self.first_change(numbers.len()),
        }
    }
}

/// Numbers a little below 0, which no call is to write, and no two alike.
fn untouched<T: From<i32>>(place: usize) -> T {
    T::from(-59 - place as i32)
}
