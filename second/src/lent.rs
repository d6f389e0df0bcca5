//! Lent entries with a margin on both sides, so that a write outside, or beyond what a call may write, is seen.
use std::fmt::Debug;

const MARGIN: usize = 16;

pub struct Lent<T> {
    whole: Vec<T>,
    was: Vec<T>,
    size: usize,
}

impl<T: Copy + PartialEq + Debug> Lent<T> {
    /// Entries to be written to, filled by `fill`, margins too.
    pub fn room(size: usize, mut fill: impl FnMut(usize) -> T) -> Lent<T> {
        let whole: Vec<T> = (0..size + 2 * MARGIN).map(&mut fill).collect();
        Lent { was: whole.clone(), whole, size }
    }

    /// Entries to be read, with margins of `around`.
    pub fn holding(entries: &[T], around: T) -> Lent<T> {
        let margin = [around; MARGIN];
        let whole = [&margin[..], entries, &margin[..]].concat();
        Lent { was: whole.clone(), whole, size: entries.len() }
    }

    pub fn size(&self) -> usize {
        self.size
    }

    pub fn entries(&self) -> &[T] {
        &self.whole[MARGIN..MARGIN + self.size]
    }

    pub fn front(&self) -> *const T {
        self.whole[MARGIN..].as_ptr()
    }

    pub fn front_mut(&mut self) -> *mut T {
        self.whole[MARGIN..].as_mut_ptr()
    }

    /// The front holds `written`, and every other entry, in the margins too, is as it was lent.
    pub fn holds(&self, written: &[T]) -> Result<(), String> {
        let end = MARGIN + written.len();
        let kept = self.whole[..MARGIN] == self.was[..MARGIN] && self.whole[end..] == self.was[end..];
        if kept && self.whole[MARGIN..end] == *written {
            return Ok(());
        }
        let want = |i: usize| if (MARGIN..end).contains(&i) { written[i - MARGIN] } else { self.was[i] };
        let i = (0..self.whole.len()).find(|&i| self.whole[i] != want(i)).expect("an entry that differs");
        Err(format!("entry {} is {:?}, not {:?}", i as isize - MARGIN as isize, self.whole[i], want(i)))
    }
}
