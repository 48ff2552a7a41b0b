//! Bytes and words at a fixed place in a page of their own.
//!
//! A store across a page boundary takes several nanoseconds more, and a load
//! may have to wait for a store at the same place in another page. Where the
//! allocator picks the places, it is chance which of those that are timed meets
//! these.

/// Bytes of a page.
const PAGE: usize = 4096;

/// Words of a page.
const PAGE_WORDS: usize = PAGE / size_of::<u32>();

#[repr(align(4096))]
struct Page<T, const LENGTH: usize>([T; LENGTH]);

/// The halves of a page that is never given back: it is needed until the program
/// ends. Inputs lie in the first half of their page, buffers in the second.
fn page<T: Copy + Default, const LENGTH: usize>() -> (&'static mut [T], &'static mut [T]) {
    let page: &'static mut Page<T, LENGTH> = Box::leak(Box::new(Page([T::default(); LENGTH])));
    page.0.split_at_mut(LENGTH / 2)
}

pub fn input(bytes: &[u8]) -> &'static [u8] {
    let place = &mut page::<u8, PAGE>().0[..bytes.len()];
    place.copy_from_slice(bytes);
    place
}

pub fn buffer(length: usize) -> &'static mut [u8] {
    &mut page::<u8, PAGE>().1[..length]
}

pub fn input_words(words: &[u32]) -> &'static [u32] {
    let place = &mut page::<u32, PAGE_WORDS>().0[..words.len()];
    place.copy_from_slice(words);
    place
}

pub fn word_buffer(length: usize) -> &'static mut [u32] {
    &mut page::<u32, PAGE_WORDS>().1[..length]
}
