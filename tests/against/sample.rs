//! Calls as wire frames with the original's lines: the list that crates/replay replays.

use crate::chance::{aligns_of, any_align, Rng};
use crate::memory::{noise, Memory, ARENA};
use crate::original::{granted, holes_of};
use linked_list_allocator::Heap;
use std::alloc::Layout;
use std::ptr::NonNull;

/// The original alone: each call is printed as a wire frame, and its answer as wire lines, marked by '='.
struct Scribe {
    heap: Heap,
    /// What an address gains when it is told.
    shift: u64,
    given: usize,
    held: Vec<(u64, u64, u64)>,
}

impl Scribe {
    fn tell(&self, a: u64) -> u64 {
        a.wrapping_add(self.shift)
    }

    fn extend(&mut self, by: usize) {
        println!("04{by:016x}");
        if self.given + by > ARENA {
            println!("=09{:016x}{:016x}", 0, 0);
        } else {
            self.given += by;
            unsafe { self.heap.extend(by) };
            println!("=00{:016x}{:016x}", self.heap.size(), self.heap.read_pending());
        }
    }

    fn list(&self) {
        println!("05");
        let holes = holes_of(&self.heap);
        println!("=00{:016x}{:016x}", holes.len(), self.heap.free());
        for (a, s) in holes {
            println!("=20{:016x}{:016x}", self.tell(a), s);
        }
    }

    /// The largest rounded size that is granted, found by trying every one from the largest hole's down.
    fn room(&mut self, align: u64) {
        println!("06{align:016x}");
        if Layout::from_size_align(16, align as usize).is_err() {
            println!("=06{:016x}{:016x}", 0, 0);
            return;
        }
        let holes = holes_of(&self.heap);
        let most = holes.iter().map(|h| h.1).max().unwrap_or(0);
        let largest = (16..=most).rev().step_by(8).find(|size| granted(&mut self.heap, *size, align)).unwrap_or(0);
        println!("=00{largest:016x}{:016x}", holes.len());
    }

    fn free(&mut self, i: usize) {
        let (a, s, g) = self.held.swap_remove(i);
        println!("03{:016x}{s:016x}{g:016x}", self.tell(a));
        unsafe { self.heap.deallocate(NonNull::new(a as *mut u8).unwrap(), Layout::from_size_align(s as usize, g as usize).unwrap()) };
        println!("=00{:016x}{:016x}", (s.max(16) + 7) / 8 * 8, self.heap.used());
    }

    fn allocate(&mut self, size: u64, align: u64) {
        println!("02{size:016x}{align:016x}");
        let before = holes_of(&self.heap);
        match self.heap.allocate_first_fit(Layout::from_size_align(size as usize, align as usize).unwrap()) {
            Ok(p) => {
                let a = p.as_ptr() as u64;
                let place = before.iter().position(|h| h.0 <= a && a < h.0 + h.1).unwrap() + 1;
                println!("=00{:016x}{:016x}", self.tell(a), place);
                self.held.push((a, size, align));
            }
            Err(()) => println!("=07{:016x}{:016x}", 0, before.len()),
        }
    }

    /// Holes for the room report, on a heap that is given back whole: none; one of 48 bytes, of which 32 lie behind a multiple of 32; with
    /// it one of 40 bytes at a multiple of 32, which wins there. Last come numbers that are no alignment, and the grant of what was told.
    fn rooms(&mut self) {
        while !self.held.is_empty() {
            self.free(self.held.len() - 1);
        }
        let rest = self.heap.size() as u64 - (72 + 48 + 32 + 40);
        for size in [72, 48, 32, 40, rest] {
            self.allocate(size, 1);
        }
        for freed in [None, Some(48), Some(40)] {
            if let Some(i) = self.held.iter().position(|b| Some(b.1) == freed) {
                self.free(i);
            }
            for align in [1, 2, 16, 32, 64, 1 << 62] {
                self.room(align);
            }
            self.allocate(48, 32);
        }
        for align in [0, 3, 1 << 63, u64::MAX] {
            self.room(align);
        }
        self.allocate(40, 32);
        self.room(32);
    }
}

/// Calls of the original as wire frames, each followed by its lines. Addresses are told from a nominal base, a multiple of 2^20.
pub fn sample(seed: u64, lines: u64) {
    let mut rng = Rng(seed | 1);
    let mut aligns = aligns_of(seed);
    let mut memory = Memory::new(ARENA);
    let nominal = 0x10_0000u64 + 5;
    let real = memory.start as u64 + 5;
    noise(memory.bytes(0, ARENA + 16), &mut rng);
    let mut scribe = Scribe { heap: Heap::empty(), shift: nominal.wrapping_sub(real), given: 40_000, held: Vec::new() };
    println!("01{nominal:016x}{:016x}", scribe.given);
    unsafe { scribe.heap.init(memory.start.add(5), scribe.given) };
    println!("=00{:016x}{:016x}", scribe.tell(scribe.heap.bottom() as u64), scribe.heap.size());
    for _ in 1..lines {
        match rng.below(40) {
            0 => scribe.extend(rng.below(60) as usize),
            1 => scribe.list(),
            2 => scribe.room(any_align(&mut aligns)),
            n if n < 18 && !scribe.held.is_empty() => scribe.free(rng.below(scribe.held.len() as u64) as usize),
            _ => {
                let size = if rng.one_in(30) { rng.below(70_000) } else { rng.below(400) };
                scribe.allocate(size, 1u64 << rng.below(13))
            }
        }
    }
    scribe.rooms();
}
