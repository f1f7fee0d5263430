//! A lent slice with guard cells before and after it, which no call may
//! touch.

pub const GUARD: usize = 8;

pub struct Guarded<T> {
    cells: Vec<T>,
    length: usize,
    guard: T,
    null: bool,
}

impl<T: Copy + PartialEq> Guarded<T> {
    pub fn with_room(most: usize, guard: T) -> Guarded<T> {
        Guarded {
            cells: vec![guard; most + 2 * GUARD],
            length: 0,
            guard,
            null: false,
        }
    }

    /// Lends exactly these cells from now on.
    pub fn set(&mut self, contents: &[T]) {
        let end = GUARD + contents.len();
        self.cells[GUARD..end].copy_from_slice(contents);
        self.cells[end..end + GUARD].fill(self.guard);
        self.length = contents.len();
        self.null = false;
    }

    /// Lends a null pointer with length 0 from now on.
    pub fn set_null(&mut self) {
        self.set(&[]);
        self.null = true;
    }

    pub fn lent(&self) -> &[T] {
        &self.cells[GUARD..GUARD + self.length]
    }

    pub fn lent_mut(&mut self) -> &mut [T] {
        &mut self.cells[GUARD..GUARD + self.length]
    }

    pub fn pointer(&mut self) -> *mut T {
        if self.null {
            std::ptr::null_mut()
        } else {
            self.lent_mut().as_mut_ptr()
        }
    }

    pub fn is_null(&self) -> bool {
        self.null
    }

    /// The lent cells with the guards around them.
    pub fn whole(&self) -> &[T] {
        &self.cells[..self.length + 2 * GUARD]
    }

    /// The first cell unlike the other's: its number in the lent slice,
    /// which is none in a guard, and both contents.
    pub fn first_unlike(&self, other: &Guarded<T>) -> Option<(Option<usize>, T, T)> {
        let both = self.whole().iter().zip(other.whole());
        let (at, (&mine, &theirs)) = both.enumerate().find(|(_, (a, b))| a != b)?;
        let number = at.checked_sub(GUARD).filter(|&n| n < self.length);
        Some((number, mine, theirs))
    }
}
