//! Sets of numbers below 1,024: of houses, or of turns.

/// How many houses there are, and how many certificates there can be.
pub const LIMIT: usize = 1024;
pub const WORDS: usize = LIMIT / 64;

/// A plain array, so that memory for many empty sets is not touched before it is used.
pub type Bits = [u64; WORDS];

pub const EMPTY: Bits = [0; WORDS];
pub const ALL: Bits = [u64::MAX; WORDS];

pub fn only(number: u16) -> Bits {
    let mut bits = EMPTY;
    bits.insert(number);
    bits
}

pub trait Set {
    fn has(&self, number: u16) -> bool;
    fn insert(&mut self, number: u16);
    fn remove(&mut self, number: u16);
    fn is_empty(&self) -> bool;
    fn len(&self) -> usize;
    /// Adds the numbers of another set, and says whether any of them is new.
    fn join(&mut self, other: &Bits) -> bool;
    fn and(self, other: &Bits) -> Bits;
    fn without(self, other: &Bits) -> Bits;
    /// The least number of the set that is not below `start`.
    fn next_from(&self, start: usize) -> Option<u16>;
    /// The numbers of the set, rising.
    fn numbers(&self) -> impl Iterator<Item = u16>;
}

impl Set for Bits {
    #[inline]
    fn has(&self, number: u16) -> bool {
        self[usize::from(number) / 64] >> (number % 64) & 1 == 1
    }

    #[inline]
    fn insert(&mut self, number: u16) {
        self[usize::from(number) / 64] |= 1 << (number % 64);
    }

    #[inline]
    fn remove(&mut self, number: u16) {
        self[usize::from(number) / 64] &= !(1 << (number % 64));
    }

    #[inline]
    fn is_empty(&self) -> bool {
        self.iter().fold(0, |all, word| all | word) == 0
    }

    fn len(&self) -> usize {
        self.iter().map(|word| word.count_ones() as usize).sum()
    }

    #[inline]
    fn join(&mut self, other: &Bits) -> bool {
        let mut added = 0;
        for (word, more) in self.iter_mut().zip(other) {
            added |= more & !*word;
            *word |= more;
        }
        added != 0
    }

    #[inline]
    fn and(mut self, other: &Bits) -> Bits {
        self.iter_mut().zip(other).for_each(|(word, more)| *word &= more);
        self
    }

    #[inline]
    fn without(mut self, other: &Bits) -> Bits {
        self.iter_mut().zip(other).for_each(|(word, less)| *word &= !less);
        self
    }

    #[inline]
    fn next_from(&self, start: usize) -> Option<u16> {
        let mut at = start / 64;
        let mut word = self.get(at)? & (u64::MAX << (start % 64));
        while word == 0 {
            at += 1;
            word = *self.get(at)?;
        }
        Some((at * 64) as u16 + word.trailing_zeros() as u16)
    }

    #[inline]
    fn numbers(&self) -> impl Iterator<Item = u16> {
        self.iter().enumerate().flat_map(|(at, &word)| {
            let mut left = word;
            std::iter::from_fn(move || {
                let bit = (left != 0).then(|| left.trailing_zeros() as u16)?;
                left &= left - 1;
                Some((at * 64) as u16 + bit)
            })
        })
    }
}

/// Which of the sixteen words of a set have a number in them.
#[inline]
pub fn words(bits: &Bits) -> u16 {
    bits.iter().enumerate().fold(0, |words, (at, &word)| words | (u16::from(word != 0) << at))
}
