//! The exports of the static library, and a safe function over each of them. All `unsafe` of this package stands here.
//!
//! What `include/leanlantern.h` asks of a caller is that the arrays of one call have the lengths told, that they do not
//! overlap, and that no pointer is null. References have all three: a heap is an array of seven words, an answer one of
//! two, arena and rows are slices that tell their own length, what is written is borrowed for the call alone, and the
//! pointer of an empty slice is not null either. Any words and any bytes may be lent.

use crate::Refusal;

/// The seven words of a heap: base, arena length, bottom, top, first, pending, used.
pub(crate) type Words = [u64; 7];

/// A call's two values, or its refusal.
pub(crate) type Told = Result<(u64, u64), Refusal>;

unsafe extern "C" {
    fn lantern_open(heap: *mut u64, arena: *mut u8, len: usize, base: u64, named: u64, answer: *mut u64) -> u64;
    fn lantern_allocate(heap: *mut u64, arena: *mut u8, len: usize, size: u64, align: u64, answer: *mut u64) -> u64;
    fn lantern_free(
        heap: *mut u64,
        arena: *mut u8,
        len: usize,
        addr: u64,
        size: u64,
        align: u64,
        answer: *mut u64,
    ) -> u64;
    fn lantern_resize(
        heap: *mut u64,
        arena: *mut u8,
        len: usize,
        addr: u64,
        old_size: u64,
        align: u64,
        new_size: u64,
        answer: *mut u64,
    ) -> u64;
    fn lantern_extend(heap: *mut u64, arena: *mut u8, len: usize, by: u64, answer: *mut u64) -> u64;
    fn lantern_room(heap: *const u64, arena: *const u8, len: usize, align: u64, answer: *mut u64) -> u64;
    fn lantern_list(
        heap: *const u64,
        arena: *const u8,
        len: usize,
        addrs: *mut u64,
        n_addrs: usize,
        sizes: *mut u64,
        n_sizes: usize,
        answer: *mut u64,
    ) -> u64;
    fn lantern_bottom(heap: *const u64) -> u64;
    fn lantern_top(heap: *const u64) -> u64;
    fn lantern_size(heap: *const u64) -> u64;
    fn lantern_used(heap: *const u64) -> u64;
    fn lantern_free_bytes(heap: *const u64) -> u64;
}

#[inline]
fn told(number: u64, answer: [u64; 2]) -> Told {
    if number == 0 {
        Ok((answer[0], answer[1]))
    } else {
        Err(Refusal::of(number, answer[1]))
    }
}

#[inline]
pub(crate) fn open(words: &mut Words, arena: &mut [u8], base: u64, named: u64) -> Told {
    let mut answer = [0; 2];
    let (heap, bytes, len) = (words.as_mut_ptr(), arena.as_mut_ptr(), arena.len());
    // SAFETY: seven words, an arena with its own length, two values, each mutably borrowed: not null, and apart
    let number = unsafe { lantern_open(heap, bytes, len, base, named, answer.as_mut_ptr()) };
    told(number, answer)
}

#[inline]
pub(crate) fn allocate(words: &mut Words, arena: &mut [u8], size: u64, align: u64) -> Told {
    let mut answer = [0; 2];
    let (heap, bytes, len) = (words.as_mut_ptr(), arena.as_mut_ptr(), arena.len());
    // SAFETY: seven words, an arena with its own length, two values, each mutably borrowed: not null, and apart
    let number = unsafe { lantern_allocate(heap, bytes, len, size, align, answer.as_mut_ptr()) };
    told(number, answer)
}

#[inline]
pub(crate) fn free(words: &mut Words, arena: &mut [u8], addr: u64, size: u64, align: u64) -> Told {
    let mut answer = [0; 2];
    let (heap, bytes, len) = (words.as_mut_ptr(), arena.as_mut_ptr(), arena.len());
    // SAFETY: seven words, an arena with its own length, two values, each mutably borrowed: not null, and apart
    let number = unsafe { lantern_free(heap, bytes, len, addr, size, align, answer.as_mut_ptr()) };
    told(number, answer)
}

#[inline]
pub(crate) fn resize(words: &mut Words, arena: &mut [u8], addr: u64, old: u64, align: u64, new: u64) -> Told {
    let mut answer = [0; 2];
    let (heap, bytes, len) = (words.as_mut_ptr(), arena.as_mut_ptr(), arena.len());
    // SAFETY: seven words, an arena with its own length, two values, each mutably borrowed: not null, and apart
    let number = unsafe { lantern_resize(heap, bytes, len, addr, old, align, new, answer.as_mut_ptr()) };
    told(number, answer)
}

#[inline]
pub(crate) fn extend(words: &mut Words, arena: &mut [u8], by: u64) -> Told {
    let mut answer = [0; 2];
    let (heap, bytes, len) = (words.as_mut_ptr(), arena.as_mut_ptr(), arena.len());
    // SAFETY: seven words, an arena with its own length, two values, each mutably borrowed: not null, and apart
    let number = unsafe { lantern_extend(heap, bytes, len, by, answer.as_mut_ptr()) };
    told(number, answer)
}

#[inline]
pub(crate) fn room(words: &Words, arena: &[u8], align: u64) -> Told {
    let mut answer = [0; 2];
    let (heap, bytes, len) = (words.as_ptr(), arena.as_ptr(), arena.len());
    // SAFETY: seven words and an arena with its own length, both only read; the two values are apart from them
    let number = unsafe { lantern_room(heap, bytes, len, align, answer.as_mut_ptr()) };
    told(number, answer)
}

#[inline]
pub(crate) fn list(words: &Words, arena: &[u8], addrs: &mut [u64], sizes: &mut [u64]) -> Told {
    let mut answer = [0; 2];
    let (heap, bytes, len) = (words.as_ptr(), arena.as_ptr(), arena.len());
    let (row, row_len, other, other_len) = (addrs.as_mut_ptr(), addrs.len(), sizes.as_mut_ptr(), sizes.len());
    // SAFETY: seven words and an arena with its own length, both only read; two rows, each with its own length and
    // mutably borrowed, and two values: not null, and apart
    let number = unsafe { lantern_list(heap, bytes, len, row, row_len, other, other_len, answer.as_mut_ptr()) };
    told(number, answer)
}

#[inline]
pub(crate) fn bottom(words: &Words) -> u64 {
    // SAFETY: seven words, only read
    unsafe { lantern_bottom(words.as_ptr()) }
}

#[inline]
pub(crate) fn top(words: &Words) -> u64 {
    // SAFETY: seven words, only read
    unsafe { lantern_top(words.as_ptr()) }
}

#[inline]
pub(crate) fn size(words: &Words) -> u64 {
    // SAFETY: seven words, only read
    unsafe { lantern_size(words.as_ptr()) }
}

#[inline]
pub(crate) fn used(words: &Words) -> u64 {
    // SAFETY: seven words, only read
    unsafe { lantern_used(words.as_ptr()) }
}

#[inline]
pub(crate) fn free_bytes(words: &Words) -> u64 {
    // SAFETY: seven words, only read
    unsafe { lantern_free_bytes(words.as_ptr()) }
}
