//! Buffers lent to the engine, with guards on both sides and a memory of what they held.

const GUARD: usize = 32;

#[derive(PartialEq)]
pub struct Lent<T> {
    cells: Vec<T>,
    before: Vec<T>,
}

impl<T: Copy + PartialEq> Lent<T> {
    /// A buffer that holds `contents` between guards of `mark`.
    pub fn new(contents: &[T], mark: T) -> Lent<T> {
        let guard = [mark; GUARD];
        let cells = [&guard, contents, &guard].concat();
        Lent { before: cells.clone(), cells }
    }

    pub fn len(&self) -> usize {
        self.cells.len() - 2 * GUARD
    }

    pub fn is_empty(&self) -> bool {
        self.len() == 0
    }

    pub fn contents(&self) -> &[T] {
        &self.cells[GUARD..GUARD + self.len()]
    }

    /// What the buffer held when it was lent.
    pub fn before(&self) -> &[T] {
        &self.before[GUARD..GUARD + self.len()]
    }

    pub fn unchanged(&self) -> bool {
        self.cells == self.before
    }

    pub fn guards_whole(&self) -> bool {
        let end = GUARD + self.len();
        self.cells[..GUARD] == self.before[..GUARD] && self.cells[end..] == self.before[end..]
    }

    pub fn contents_mut(&mut self) -> &mut [T] {
        let end = GUARD + self.len();
        &mut self.cells[GUARD..end]
    }
}
