//! Buffers between canaries.

use std::hint::black_box;
use std::ops::Range;

use compare::rng::Rng;

/// Bytes, or words, before and behind every buffer.
const CANARY: usize = 32;

/// More bytes than the longest buffer here has, canaries included.
const NOISE: usize = 1 << 21;

/// Bytes of a word.
const WORD: usize = size_of::<u32>();

/// Bytes or words between two canaries. Two of them are equal only if the
/// canaries are.
#[derive(Clone, Debug, PartialEq, Eq)]
pub struct Guarded<T = u8> {
    items: Vec<T>,
    inner: Range<usize>,
}

impl Guarded<u8> {
    pub fn bytes(&self) -> &[u8] {
        self.inner()
    }

    pub fn bytes_mut(&mut self) -> &mut [u8] {
        self.inner_mut()
    }
}

impl Guarded<u32> {
    pub fn words(&self) -> &[u32] {
        self.inner()
    }

    pub fn words_mut(&mut self) -> &mut [u32] {
        self.inner_mut()
    }
}

impl<T: Copy + PartialEq> Guarded<T> {
    fn inner(&self) -> &[T] {
        &self.items[self.inner.clone()]
    }

    fn inner_mut(&mut self) -> &mut [T] {
        &mut self.items[self.inner.clone()]
    }

    /// How many there are between the canaries.
    pub fn length(&self) -> usize {
        self.inner.len()
    }

    /// The first that differs, counted from the buffer's start: negative in the
    /// canary before it, at or beyond the length in the one behind it.
    pub fn first_difference(&self, other: &Guarded<T>) -> Option<isize> {
        let at = self
            .items
            .iter()
            .zip(&other.items)
            .position(|(a, b)| a != b)?;
        Some(at as isize - self.inner.start as isize)
    }

    /// What is at an offset that `first_difference` gave.
    pub fn at(&self, offset: isize) -> T {
        self.items[(self.inner.start as isize + offset) as usize]
    }
}

/// An input for the library, and how it was before.
pub struct Input<T = u8> {
    pub now: Guarded<T>,
    pub before: Guarded<T>,
}

impl<T: Copy + PartialEq> Input<T> {
    pub fn new(content: Guarded<T>) -> Self {
        Input {
            before: content.clone(),
            now: content,
        }
    }

    /// Whether the library has left it as it was, and the canaries too.
    pub fn unchanged(&mut self) -> bool {
        // The compiler must not take it for granted that inputs stay.
        black_box(&mut self.now);
        self.now == self.before
    }
}

/// Where canaries and the old content of output buffers come from.
pub struct Noise {
    rng: Rng,
    bytes: Vec<u8>,
}

impl Noise {
    pub fn new(mut rng: Rng) -> Self {
        // Without zeros: a buffer that is cleared too far must show.
        let bytes = (0..NOISE).map(|_| rng.byte().max(1)).collect();
        Noise { rng, bytes }
    }

    /// Where a buffer of `length` items lies between its canaries, and noise for
    /// all of them, where an item has `size` bytes.
    fn around_length(&mut self, length: usize, size: usize) -> (Range<usize>, &[u8]) {
        // The start moves, so that no alignment of the buffer is presumed but
        // that of an item.
        let start = CANARY + self.rng.below(8);
        let end = start + length;
        let total = (end + CANARY) * size;
        let from = self.rng.below(self.bytes.len() - total);
        (start..end, &self.bytes[from..from + total])
    }

    /// A buffer of `length` bytes with old content.
    pub fn buffer(&mut self, length: usize) -> Guarded {
        let (inner, noise) = self.around_length(length, 1);
        Guarded {
            items: noise.to_vec(),
            inner,
        }
    }

    /// A buffer that holds `content`.
    pub fn around(&mut self, content: &[u8]) -> Guarded {
        let mut buffer = self.buffer(content.len());
        buffer.bytes_mut().copy_from_slice(content);
        buffer
    }

    /// A buffer of `length` words with old content.
    pub fn words(&mut self, length: usize) -> Guarded<u32> {
        let (inner, noise) = self.around_length(length, WORD);
        let words = noise.chunks_exact(WORD).map(|bytes| {
            bytes
                .iter()
                .fold(0, |word, &byte| word << 8 | u32::from(byte))
        });
        Guarded {
            items: words.collect(),
            inner,
        }
    }

    /// A buffer that holds the words `content`.
    pub fn around_words(&mut self, content: &[u32]) -> Guarded<u32> {
        let mut buffer = self.words(content.len());
        buffer.words_mut().copy_from_slice(content);
        buffer
    }
}
