//! Both sides before the opening: what they answer there, and the opening itself.
//!
//! Shared ground has requests and readers there. A free, an extension and an opening that is refused lie off it, and the original has no
//! resize, list or room report. These calls go to ours alone: it answers 3, to such an opening 1, and nothing changes.

use crate::chance::{any_align, Rng};
use crate::memory::Memory;
use crate::original::{holes_of, opened, Way};
use crate::pair::Pair;
use crate::report::{differ, same, Counts};
use crate::runs::random_size;
use leanlantern::{Block, Lantern, Opened, Refusal};
use linked_list_allocator::Heap;
use std::alloc::Layout;
use std::fmt::Debug;

/// The original and ours, and the memory that each is to get.
pub struct Unopened<'a> {
    pub heap: Heap,
    pub memory: &'a mut Memory,
    pub residue: usize,
    pub base: u64,
    pub ours: Lantern<'a>,
    /// Our arena as it was lent.
    pub before: Vec<u8>,
}

impl<'a> Unopened<'a> {
    pub fn new(memory: &'a mut Memory, arena: &'a mut [u8], residue: usize) -> Unopened<'a> {
        let base = memory.start as u64 + residue as u64;
        let before = arena.to_vec();
        Unopened { heap: Heap::empty(), memory, residue, base, ours: Lantern::new(arena), before }
    }

    /// The original says no, and ours 3, whatever the layout. Where there is no such layout, ours is asked alone.
    pub fn allocate(&mut self, size: u64, align: u64, counts: &mut Counts) {
        let answer = self.ours.allocate(size, align);
        if let Ok(layout) = Layout::from_size_align(size as usize, align as usize) {
            if let Ok(p) = self.heap.allocate_first_fit(layout) {
                differ("unopened: request", p, answer)
            }
            counts.unopened_requests += 1;
        }
        self.refused("unopened: request", Refusal::Unopened, answer, counts);
    }

    /// Ours has refused a call, and this refusal is due. Every reader of both is 0, the original has no hole, and our words and bytes stay.
    fn refused<T: PartialEq + Debug>(&self, what: &str, due: Refusal, answer: Result<T, Refusal>, counts: &mut Counts) {
        counts.calls += 1;
        counts.unopened += 1;
        same(what, Err(due), answer);
        let (heap, ours) = (&self.heap, &self.ours);
        for (what, theirs, ours) in [
            ("unopened: bottom", heap.bottom() as usize, ours.bottom()),
            ("unopened: top", heap.top() as usize, ours.top()),
            ("unopened: size", heap.size(), ours.size()),
            ("unopened: used", heap.used(), ours.used()),
            ("unopened: free bytes", heap.free(), ours.free_bytes()),
            ("unopened: pending", heap.read_pending(), ours.words()[5]),
        ] {
            same(what, theirs as u64, ours);
            same("unopened: a reader of the original", theirs, 0);
        }
        if !holes_of(heap).is_empty() || ours.words() != [0; 7] || self.before != ours.arena() {
            differ("unopened: a hole, or a change", holes_of(heap), ours.words())
        }
    }

    /// A list goes into no row.
    fn list(&self, counts: &mut Counts) {
        let (mut addrs, mut sizes) = ([5], [6]);
        self.refused("unopened: list", Refusal::Unopened, self.ours.list(&mut addrs, &mut sizes), counts);
        same("unopened: rows", (5, 6), (addrs[0], sizes[0]));
    }

    /// An opening that ours refuses: at base 0, past the largest address, past the arena, or with too few bytes.
    fn refused_opening(&mut self, rng: &mut Rng, counts: &mut Counts) {
        let len = self.ours.arena().len() as u64;
        let (base, named) = match rng.below(4) {
            0 => (0, rng.below(len + 1)),
            1 => ((1 << 63) - len + 1 + rng.below(64), rng.below(len + 1)),
            2 => (self.base, len + 1 + rng.below(64)),
            _ => (self.base, rng.below(16)),
        };
        let answer = self.ours.open(base, named);
        self.refused("unopened: opening refused", Refusal::BadOpening, answer, counts);
    }

    /// One call by chance, for the most part a request.
    pub fn turn(&mut self, rng: &mut Rng, counts: &mut Counts) {
        let len = self.ours.arena().len() as u64;
        let (size, new, align) = (random_size(rng, len), random_size(rng, len), any_align(rng));
        let addr = self.base + rng.below(len + 1);
        match rng.below(12) {
            0 => {
                let answer = self.ours.free(Block { addr, size, align });
                self.refused("unopened: free", Refusal::Unopened, answer, counts)
            }
            1 => {
                let answer = self.ours.resize(Block { addr, size, align }, new);
                self.refused("unopened: resize", Refusal::Unopened, answer, counts)
            }
            2 => {
                let answer = self.ours.extend(new);
                self.refused("unopened: extension", Refusal::Unopened, answer, counts)
            }
            3 => self.list(counts),
            4 => self.refused("unopened: room", Refusal::Unopened, self.ours.room(align), counts),
            5 => self.refused_opening(rng, counts),
            _ => self.allocate(size, align, counts),
        }
    }

    /// Both sides opened, the original in one of its ways; or both unopened still, where there are too few bytes. That opening lies off
    /// shared ground, and the original is not asked.
    pub fn open(mut self, named: usize, way: Way, counts: &mut Counts) -> Result<Pair<'a>, Unopened<'a>> {
        let answer = self.ours.open(self.base, named as u64);
        let gap = (8 - self.residue % 8) % 8;
        if named < gap || (named - gap) / 8 * 8 < 16 {
            self.refused("opening refused", Refusal::BadOpening, answer, counts);
            return Err(self);
        }
        opened(&mut self.heap, unsafe { self.memory.start.add(self.residue) }, named, way);
        let due = Opened { bottom: self.heap.bottom() as u64, size: self.heap.size() as u64 };
        same("opening", Ok(due), answer);
        Ok(Pair::new(self, named))
    }
}
