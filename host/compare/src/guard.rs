//! Slices lent to the core, between guards that show a store outside of them.

use std::fmt::Debug;
use std::hint::black_box;

const GUARD: usize = 16;

/// An element that guards and unwritten room can be filled with.
pub trait Cell: Copy + PartialEq + Debug {
    /// What stands at this place of a guard or of unwritten room; no two neighbours are alike.
    fn pattern(place: usize) -> Self;
}

impl Cell for u32 {
    fn pattern(place: usize) -> Self {
        0xc0de_0000 | (place as u32 & 0xffff)
    }
}

impl Cell for u8 {
    fn pattern(place: usize) -> Self {
        0xa5 ^ place as u8
    }
}

/// A slice with its two guards, and what stood in all three when it was lent.
pub struct Guarded<T> {
    cells: Vec<T>,
    was: Vec<T>,
}

impl<T: Cell> Guarded<T> {
    pub fn of(content: &[T]) -> Self {
        let guard: [T; GUARD] = std::array::from_fn(T::pattern);
        let cells = [&guard, content, &guard].concat();
        Self {
            was: cells.clone(),
            cells,
        }
    }

    /// Room to be written, filled with what nothing writes.
    pub fn room(len: usize) -> Self {
        let content: Vec<T> = (0..len).map(T::pattern).collect();
        Self::of(&content)
    }

    fn end(&self) -> usize {
        self.cells.len() - GUARD
    }

    pub fn lent(&self) -> &[T] {
        &self.cells[GUARD..self.end()]
    }

    pub fn lent_mut(&mut self) -> &mut [T] {
        let end = self.end();
        &mut self.cells[GUARD..end]
    }

    pub fn expect_kept(&self, name: &str) -> Result<(), String> {
        self.expect(name, &[])
    }

    /// `front` stands at the front, what was there behind it, and the guards are whole.
    pub fn expect(&self, name: &str, front: &[T]) -> Result<(), String> {
        let cells = black_box(&self.cells);
        let rest = GUARD + front.len();
        if rest > self.end() {
            return Err(format!("{name}: {} do not fit", front.len()));
        }
        if cells[..GUARD] == self.was[..GUARD]
            && cells[GUARD..rest] == *front
            && cells[rest..] == self.was[rest..]
        {
            return Ok(());
        }
        Err(self.first_difference(name, front))
    }

    fn first_difference(&self, name: &str, front: &[T]) -> String {
        let mut expected = self.was.clone();
        expected[GUARD..GUARD + front.len()].copy_from_slice(front);
        let place = self.cells.iter().zip(&expected).position(|(a, b)| a != b);
        let place = place.expect("a difference");
        let (found, expected) = (self.cells[place], expected[place]);
        let place = place as isize - GUARD as isize;
        let len = self.was.len() - 2 * GUARD;
        format!("{name}: place {place} of {len} holds {found:x?}, expected {expected:x?}")
    }
}

#[cfg(test)]
mod tests {
    use super::*;

    #[test]
    fn stores_are_seen_inside_and_outside() {
        let mut slice = Guarded::of(&[1u32, 2, 3]);
        assert_eq!(slice.expect_kept("list"), Ok(()));
        slice.lent_mut()[0] = 7;
        assert_eq!(slice.expect("list", &[7]), Ok(()));
        assert!(slice.expect_kept("list").is_err());
        assert!(slice.expect("list", &[7, 9]).is_err());
        assert!(slice.expect("list", &[7, 2, 3, 4]).is_err());
        for outside in [0, GUARD - 1, GUARD + 3, 2 * GUARD + 2] {
            let mut slice = Guarded::of(&[1u8, 2, 3]);
            slice.cells[outside] ^= 1;
            assert!(slice.expect_kept("list").is_err(), "{outside}");
        }
    }
}
