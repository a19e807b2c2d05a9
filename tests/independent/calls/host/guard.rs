//! Arrays lent with sentinels on both sides.

/// Elements on each side. With an odd count, bytes start on an odd address.
const ELEMENTS: [usize; 2] = [61, 64];

pub struct Guarded<T> {
    all: Vec<T>,
    guard: usize,
    length: usize,
    fill: T,
    null: bool,
}

impl<T: Copy + PartialEq> Guarded<T> {
    /// Two calls in turn have different sentinels, so that one that reads them shows it. An empty array is NULL in
    /// every second call: reach.h allows any pointer where the count is 0.
    pub fn new(data: &[T], fills: [T; 2], turn: usize) -> Guarded<T> {
        let (guard, fill) = (ELEMENTS[turn % 2], fills[turn % 2]);
        let all = [&vec![fill; guard][..], data, &vec![fill; guard]].concat();
        Guarded { all, guard, length: data.len(), fill, null: data.is_empty() && turn % 2 == 1 }
    }

    /// From the whole vector's mutable pointer, so that the compiler must expect writes, into the sentinels too.
    pub fn start(&mut self) -> *mut T {
        if self.null {
            return std::ptr::null_mut();
        }
        unsafe { self.all.as_mut_ptr().add(self.guard) }
    }

    pub fn len(&self) -> usize {
        self.length
    }

    /// What was lent, as it is now.
    pub fn back(self, what: &str) -> Result<Vec<T>, String> {
        let (before, rest) = self.all.split_at(self.guard);
        let (lent, after) = rest.split_at(self.length);
        if before.iter().chain(after).all(|element| *element == self.fill) {
            Ok(lent.to_vec())
        } else {
            Err(format!("written to outside of the lent {what}"))
        }
    }
}
