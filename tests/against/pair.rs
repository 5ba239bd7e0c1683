//! The original and ours on the same calls, and what is compared between and after them.

use crate::chance::{any_align, Rng};
use crate::memory::Memory;
use crate::original::{asked, give_back, granted, holes_of, rounded};
use crate::report::{differ, same, Counts};
use crate::unopened::Unopened;
use leanlantern::{Allocated, Block, Extended, Freed, Lantern, Listed, Refusal, Resized, Room};
use linked_list_allocator::Heap;
use std::alloc::Layout;
use std::ptr::NonNull;

#[derive(Clone, Copy)]
pub struct Held {
    pub addr: u64,
    pub size: u64,
    pub align: u64,
    pub stamp: u8,
}

impl Held {
    pub fn block(&self) -> Block {
        Block { addr: self.addr, size: self.size, align: self.align }
    }

    /// The bytes that the block takes: its size, at least 16, rounded up to 8.
    pub fn span(&self) -> usize {
        (self.size.max(16) as usize).next_multiple_of(8)
    }
}

/// What our words and heads are if the holes are these, each head with its place: its size and the next place, all ones if there is none.
fn as_ours(ours: &Lantern, holes: &[(u64, u64)], used: u64) -> ([u64; 7], Vec<(usize, [u8; 16])>) {
    let mut words = ours.words();
    let base = words[0];
    let place = |k: usize| holes.get(k).map_or(u64::MAX, |hole| hole.0 - base);
    words[4] = place(0);
    words[6] = used;
    let head = |k: usize| {
        let mut bytes = [0; 16];
        bytes[..8].copy_from_slice(&holes[k].1.to_le_bytes());
        bytes[8..].copy_from_slice(&place(k + 1).to_le_bytes());
        (place(k) as usize, bytes)
    };
    (words, (0..holes.len()).map(head).collect())
}

/// A list is written into our arena, as the frees that lead to it would leave it. Each call of ours reads every head, so that it would take
/// time with the square of the holes to make them by frees.
pub fn carry(ours: &mut Lantern, holes: &[(u64, u64)], used: u64) {
    let (words, heads) = as_ours(ours, holes, used);
    let arena = std::mem::replace(ours, Lantern::new(&mut [])).into_arena();
    for (at, head) in heads {
        arena[at..at + 16].copy_from_slice(&head);
    }
    *ours = Lantern::from_words(words, arena);
}

/// The original and ours, opened alike.
pub struct Pair<'a> {
    pub heap: Heap,
    memory: &'a mut Memory,
    residue: usize,
    pub base: u64,
    len: usize,
    given: usize,
    ours: Lantern<'a>,
    pub held: Vec<Held>,
    rows: (Vec<u64>, Vec<u64>),
    /// Our arena as it was before a resize.
    before: Vec<u8>,
}

impl<'a> Pair<'a> {
    /// Both sides, which were just opened with as many bytes as are named.
    pub fn new(unopened: Unopened<'a>, named: usize) -> Pair<'a> {
        let Unopened { heap, memory, residue, base, ours, before } = unopened;
        let len = ours.arena().len();
        // holes and the blocks between them have 16 bytes each, at least
        let most = len / 32 + 1;
        let rows = (vec![0; most], vec![0; most]);
        Pair { heap, memory, residue, base, len, given: named, ours, held: Vec::new(), rows, before }
    }

    /// Whether a place needs more than two bytes.
    fn is_far(&self, addr: u64) -> bool {
        addr - self.base >= 1 << 16
    }

    pub fn original_holes(&self) -> Vec<(u64, u64)> {
        holes_of(&self.heap)
    }

    /// Our room report at an alignment, tried on the original: it grants the size told, and neither of the next two. So it grants none
    /// above: a hole with 8 or 16 bytes more would grant one of the two, and a hole with still more the next, with at least 16 behind it.
    fn compare_room(&mut self, align: u64, holes: u64, counts: &mut Counts) {
        counts.rooms += 1;
        let answer = self.ours.room(align);
        if Layout::from_size_align(16, align as usize).is_err() {
            same("room at no alignment", Err(Refusal::BadLayout), answer);
            return;
        }
        let largest = answer.map_or(0, |told| told.largest);
        same("room: holes", Ok(Room { largest, holes }), answer);
        // what must be refused is asked first: a faulty original then never gets a block back that it should not have granted
        let next = largest.max(8) + 8;
        for size in [next, next + 8] {
            if asked(&mut self.heap, size, align).is_some() {
                differ(&format!("room at {align}"), format!("grants {size}"), largest)
            }
        }
        if largest % 8 != 0 || largest > 0 && !granted(&mut self.heap, largest, align) {
            differ(&format!("room at {align}"), "does not grant it", largest)
        }
    }

    /// The list that both have.
    pub fn compare_list(&mut self) -> Vec<(u64, u64)> {
        let holes = self.original_holes();
        let (addrs, sizes) = (&mut self.rows.0, &mut self.rows.1);
        let due = Listed { holes: holes.len() as u64, free: self.heap.free() as u64 };
        same("list", Ok(due), self.ours.list(addrs, sizes));
        for (i, hole) in holes.iter().enumerate() {
            same("hole", *hole, (addrs[i], sizes[i]));
        }
        holes
    }

    /// Lists, sums, room and readers of both.
    pub fn compare(&mut self, aligns: &mut Rng, counts: &mut Counts) {
        let holes = self.compare_list();
        self.compare_room(1, holes.len() as u64, counts);
        self.compare_room(any_align(aligns), holes.len() as u64, counts);
        same("room: the original's holes after the tries", &holes, &self.original_holes());
        self.compare_numbers();
        counts.lists += 1;
        counts.holes += holes.len() as u64;
        counts.most = counts.most.max(holes.len() as u64);
        counts.long += (holes.len() > 1 << 16) as u64;
        counts.far_first += holes.first().is_some_and(|hole| self.is_far(hole.0)) as u64;
    }

    /// What can be told of both without their lists.
    fn compare_numbers(&self) {
        same("bottom", self.heap.bottom() as u64, self.ours.bottom());
        same("top", self.heap.top() as u64, self.ours.top());
        same("size", self.heap.size() as u64, self.ours.size());
        same("used", self.heap.used() as u64, self.ours.used());
        same("free bytes", self.heap.free() as u64, self.ours.free_bytes());
        same("pending", self.heap.read_pending() as u64, self.ours.words()[5]);
    }

    /// Our words and the bytes of our heads are those of the original's list.
    pub fn compare_heads(&self) {
        let (words, heads) = as_ours(&self.ours, &self.original_holes(), self.heap.used() as u64);
        same("words", words, self.ours.words());
        for (at, head) in heads {
            same("head", head, self.ours.arena()[at..at + 16].try_into().unwrap());
        }
    }

    /// The original alone gets a block back. Ours is to be told of it by `carry`, before its next call.
    pub fn free_on_original(&mut self, i: usize) {
        let b = self.held.swap_remove(i);
        let layout = Layout::from_size_align(b.size as usize, b.align as usize).unwrap();
        unsafe { self.heap.deallocate(NonNull::new(b.addr as *mut u8).unwrap(), layout) };
    }

    /// The original's list is written into our arena.
    pub fn carry(&mut self, counts: &mut Counts) {
        let holes = self.original_holes();
        carry(&mut self.ours, &holes, self.heap.used() as u64);
        counts.carried += 1;
    }

    /// Every byte of a held block is what was written there, on both sides.
    fn compare_block(&mut self, b: Held, counts: &mut Counts) {
        let at = (b.addr - self.base) as usize;
        let theirs = self.memory.bytes(self.residue + at, b.span());
        if theirs.iter().any(|x| *x != b.stamp) {
            differ("the original changed a held block", b.addr, b.size)
        }
        if self.ours.arena()[at..at + b.span()].iter().any(|x| *x != b.stamp) {
            differ("a held block changed", b.addr, b.size)
        }
        counts.bytes += b.span() as u64;
    }

    /// The same of every held block.
    pub fn compare_held(&mut self, counts: &mut Counts) {
        for i in 0..self.held.len() {
            self.compare_block(self.held[i], counts);
        }
    }

    /// Noise into every byte of the arena but the first 16 of each hole and the held blocks, another on each side.
    pub fn scribble(&mut self, rng: &mut Rng) {
        let mut spared = vec![false; self.len];
        let heads = self.original_holes().into_iter().map(|(addr, _)| (addr, 16));
        let blocks = self.held.iter().map(|b| (b.addr, b.span()));
        for (addr, size) in heads.chain(blocks) {
            let at = (addr - self.base) as usize;
            spared[at..at + size].fill(true);
        }
        let (theirs, ours) = (self.memory.bytes(self.residue, self.len), self.ours.arena_mut());
        for i in (0..self.len).filter(|i| !spared[*i]) {
            theirs[i] = rng.next() as u8;
            ours[i] = rng.next() as u8;
        }
    }

    fn stamp(&mut self, b: Held) {
        let at = (b.addr - self.base) as usize;
        self.memory.bytes(self.residue + at, b.span()).fill(b.stamp);
        self.ours.arena_mut()[at..at + b.span()].fill(b.stamp);
    }

    /// A call begins: the numbers that the call before it left are the same on both sides.
    fn begin(&mut self, counts: &mut Counts) {
        counts.calls += 1;
        self.compare_numbers();
    }

    pub fn allocate(&mut self, size: u64, align: u64, stamp: u8, counts: &mut Counts) {
        self.begin(counts);
        let before = self.original_holes();
        let answer = self.ours.allocate(size, align);
        let layout = match Layout::from_size_align(size as usize, align as usize) {
            Ok(layout) => layout,
            Err(_) => {
                same("no valid layout", Err(Refusal::BadLayout), answer);
                counts.layouts += 1;
                return;
            }
        };
        match self.heap.allocate_first_fit(layout) {
            Ok(p) => {
                let addr = p.as_ptr() as u64;
                let place = before.iter().position(|h| h.0 <= addr && addr < h.0 + h.1).map(|i| i as u64 + 1).unwrap_or(0);
                let held = Held { addr, size, align, stamp };
                same("grant", Ok(Allocated { block: held.block(), looked_at: place }), answer);
                self.held.push(held);
                self.stamp(held);
                counts.grants += 1;
                counts.far += self.is_far(addr) as u64;
            }
            Err(()) => {
                // the original does not say which: a layout that overflows when rounded is 6, else there is no room
                let rounded = (size.max(16) as u128 + 7) / 8 * 8;
                if rounded + align as u128 > 1 << 63 {
                    same("layout", Err(Refusal::BadLayout), answer);
                    counts.layouts += 1;
                } else {
                    same("no room", Err(Refusal::NoRoom { holes: before.len() as u64 }), answer);
                    counts.no_room += 1;
                }
            }
        }
    }

    pub fn free(&mut self, i: usize, counts: &mut Counts) {
        self.begin(counts);
        counts.frees += 1;
        let b = self.held.swap_remove(i);
        self.compare_block(b, counts);
        let layout = Layout::from_size_align(b.size as usize, b.align as usize).unwrap();
        unsafe { self.heap.deallocate(NonNull::new(b.addr as *mut u8).unwrap(), layout) };
        let rounded = b.span() as u64;
        let used = self.heap.used() as u64;
        same("free", Ok(Freed { rounded, used }), self.ours.free(b.block()));
        counts.far += self.is_far(b.addr) as u64;
    }

    /// The stretch of a held block by the original's list: the block plus the hole that touches its end, whose place is told too.
    pub fn stretch(&self, i: usize, holes: &[(u64, u64)]) -> (u64, Option<usize>) {
        let span = self.held[i].span() as u64;
        let end = self.held[i].addr + span;
        let behind = holes.binary_search_by_key(&end, |hole| hole.0).ok();
        (span + behind.map_or(0, |k| holes[k].1), behind)
    }

    /// A held block gets a new size, of `to` bytes, on the original, by its own grants and frees. A tail of at least 16 bytes is given back.
    /// Else the hole behind is taken whole, and what is left of the stretch is given back. A request finds that hole once there is none in
    /// front of it: those are taken first, each with its own size, and given back last.
    fn refit(&mut self, i: usize, to: u64, holes: &[(u64, u64)], counts: &mut Counts) {
        let (addr, old) = (self.held[i].addr, self.held[i].span() as u64);
        let (stretch, behind) = self.stretch(i, holes);
        if to + 16 <= old {
            give_back(&mut self.heap, addr + to, old - to);
            counts.tails += 1;
        } else if to != old {
            let front = behind.expect("a hole behind the block");
            for hole in &holes[..=front] {
                let taken = asked(&mut self.heap, hole.1, 1).map(|(p, _)| p.as_ptr() as u64);
                if taken != Some(hole.0) {
                    differ("resize: a hole of the original", taken, hole)
                }
            }
            if stretch != to {
                give_back(&mut self.heap, addr + to, stretch - to);
            }
            for hole in holes[..front].iter().rev() {
                give_back(&mut self.heap, hole.0, hole.1);
            }
            counts.taken += 1;
        }
    }

    /// Refused, our words and bytes stay. Granted, both sides have the same list and used, the bytes common to both sizes stay, and so does
    /// every byte of our arena that is in no head.
    pub fn resize(&mut self, i: usize, new: u64, counts: &mut Counts) {
        self.begin(counts);
        let b = self.held[i];
        let holes = self.original_holes();
        let (stretch, _) = self.stretch(i, &holes);
        let words = self.ours.words();
        self.before.clear();
        self.before.extend_from_slice(self.ours.arena());
        let answer = self.ours.resize(b.block(), new);
        let to = match rounded(new, b.align) {
            Some(to) if to == stretch || to + 16 <= stretch => to,
            due => {
                let (refusal, count) = match due {
                    None => (Refusal::BadLayout, &mut counts.layouts),
                    Some(_) => (Refusal::BadStretch, &mut counts.stretches),
                };
                same("resize refused", Err(refusal), answer);
                same("resize refused: words", words, self.ours.words());
                if self.before != self.ours.arena() {
                    differ("resize refused: a byte changed", b.addr, new)
                }
                *count += 1;
                return;
            }
        };
        self.refit(i, to, &holes, counts);
        let block = Block { size: new, ..b.block() };
        same("resize", Ok(Resized { block, rounded: to, used: self.heap.used() as u64 }), answer);
        let (at, common) = ((b.addr - self.base) as usize, b.span().min(to as usize));
        if self.memory.bytes(self.residue + at, common).iter().any(|x| *x != b.stamp) {
            differ("resize: the original changed a common byte", b.addr, new)
        }
        if self.ours.arena()[at..at + common].iter().any(|x| *x != b.stamp) {
            differ("resize: a common byte changed", b.addr, new)
        }
        for (addr, _) in self.compare_list() {
            let at = (addr - self.base) as usize;
            self.before[at..at + 16].copy_from_slice(&self.ours.arena()[at..at + 16]);
        }
        if self.before != self.ours.arena() {
            differ("resize: a byte in no head changed", b.addr, new)
        }
        self.held[i].size = new;
        self.stamp(self.held[i]);
        counts.resizes += 1;
        counts.far += self.is_far(b.addr) as u64;
    }

    pub fn extend(&mut self, by: usize, counts: &mut Counts) {
        self.begin(counts);
        if self.given + by > self.len {
            same("past the arena", Err(Refusal::PastArena), self.ours.extend(by as u64));
            counts.past += 1;
            return;
        }
        self.given += by;
        counts.extends += 1;
        unsafe { self.heap.extend(by) };
        let due = Extended { size: self.heap.size() as u64, pending: self.heap.read_pending() as u64 };
        same("extend", Ok(due), self.ours.extend(by as u64));
    }
}
