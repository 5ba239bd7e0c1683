//! The memory that the original is given, and noise in memory.

use crate::chance::Rng;
use std::alloc::Layout;

/// The arena of most modes, and the largest one there can be.
pub const ARENA: usize = 65_536;
pub const LARGEST: usize = 16_777_216;

/// Bases are tried at so many residues, one byte apart: most requests have no larger alignment.
pub const RESIDUES: usize = 64;

/// Memory for an arena, with 64 bytes more for its residue. It lies at an odd multiple of a power of two, at least 2^20 and no smaller
/// than itself: no larger alignment is met in it, so that a run depends on its seed alone and not on where the memory happens to lie.
pub struct Memory {
    pub start: *mut u8,
    len: usize,
}

impl Memory {
    fn step(len: usize) -> usize {
        (len + RESIDUES).next_power_of_two().max(1 << 20)
    }

    fn layout(len: usize) -> Layout {
        Layout::from_size_align(Memory::step(len) + len + RESIDUES, 2 * Memory::step(len)).unwrap()
    }

    pub fn new(len: usize) -> Memory {
        let whole = unsafe { std::alloc::alloc(Memory::layout(len)) };
        assert!(!whole.is_null());
        Memory { start: unsafe { whole.add(Memory::step(len)) }, len }
    }

    pub fn bytes(&mut self, from: usize, len: usize) -> &mut [u8] {
        unsafe { std::slice::from_raw_parts_mut(self.start.add(from), len) }
    }
}

impl Drop for Memory {
    fn drop(&mut self) {
        unsafe { std::alloc::dealloc(self.start.sub(Memory::step(self.len)), Memory::layout(self.len)) }
    }
}

pub fn noise(bytes: &mut [u8], rng: &mut Rng) {
    for b in bytes {
        *b = rng.next() as u8;
    }
}
