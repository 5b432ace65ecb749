//! Lent memory whose surroundings are watched: a slice inside a larger allocation, with margins before and behind it.

/// At least so many elements stand before the slice, and as many behind it.
const MARGIN: usize = 64;

/// A slice with its margins. The front margin varies in length, so that slices of bytes begin at any address.
#[derive(Clone)]
pub struct Lent<T> {
    all: Vec<T>,
    before: Vec<T>,
    start: usize,
    length: usize,
}

/// A number that depends on all three, for the fill: which ask, which slice, which element.
fn mixed(ask: u64, slice: u64, element: u64) -> u64 {
    let mut mixed = (ask << 32) ^ (slice << 24) ^ element;
    mixed = (mixed ^ (mixed >> 30)).wrapping_mul(0xbf58_476d_1ce4_e5b9);
    mixed = (mixed ^ (mixed >> 27)).wrapping_mul(0x94d0_49bb_1331_11eb);
    mixed ^ (mixed >> 31)
}

/// Bytes to lend.
pub fn bytes(ask: u64, slice: u64, length: usize) -> Lent<u8> {
    Lent::filled(ask, length, |element| mixed(ask, slice, element) as u8)
}

/// Numbers to lend.
pub fn numbers(ask: u64, slice: u64, length: usize) -> Lent<u64> {
    Lent::filled(ask, length, |element| mixed(ask, slice, element))
}

impl<T: Copy + PartialEq> Lent<T> {
    fn filled(ask: u64, length: usize, fill: impl Fn(u64) -> T) -> Lent<T> {
        let start = MARGIN + (ask % 8) as usize;
        let all: Vec<T> = (0..start + length + MARGIN).map(|element| fill(element as u64)).collect();
        Lent { before: all.clone(), all, start, length }
    }

    /// The same with this content in place of the fill.
    pub fn holding(mut self, content: &[T]) -> Lent<T> {
        self.slice_mut().copy_from_slice(content);
        self.before.copy_from_slice(&self.all);
        self
    }

    pub fn slice(&self) -> &[T] {
        &self.all[self.start..self.start + self.length]
    }

    pub fn slice_mut(&mut self) -> &mut [T] {
        &mut self.all[self.start..self.start + self.length]
    }

    /// Where the slice, or a margin, differs from another one of the same length: the first place, counted from the slice's begin.
    pub fn difference(&self, other: &Lent<T>) -> Option<isize> {
        if self.all == other.all {
            return None;
        }
        let element = self.all.iter().zip(&other.all).position(|(ours, theirs)| ours != theirs)?;
        Some(element as isize - self.start as isize)
    }

    /// Are these bytes at the slice's front, and is all else, the margins too, as it was at first? Afterwards all is as it was at first.
    pub fn took_only(&mut self, written: &[T]) -> bool {
        let end = self.start + written.len();
        let found = self.all[self.start..end] == *written;
        let kept = self.all[..self.start] == self.before[..self.start] && self.all[end..] == self.before[end..];
        if kept {
            self.all[self.start..end].copy_from_slice(&self.before[self.start..end]);
        } else {
            self.all.copy_from_slice(&self.before);
        }
        found && kept
    }
}
