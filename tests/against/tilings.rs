//! Every tiling of small heaps, each with one more call.

use crate::chance::{aligns_of, Rng};
use crate::memory::{noise, Memory, ARENA, RESIDUES};
use crate::original::WAYS;
use crate::pair::Pair;
use crate::report::Counts;
use crate::unopened::Unopened;

/// Every way to cut `units` into stretches of at least 2, each held or free, no two free ones side by side.
fn tilings(units: usize, free_before: bool, so_far: &mut Vec<(usize, bool)>, all: &mut Vec<Vec<(usize, bool)>>) {
    if units == 0 {
        all.push(so_far.clone());
        return;
    }
    for n in 2..=units {
        if units - n == 1 {
            continue;
        }
        for free in [false, true] {
            if free && free_before {
                continue;
            }
            so_far.push((n, free));
            tilings(units - n, free, so_far, all);
            so_far.pop();
        }
    }
}

/// Both sides with one tiling, at one residue of the base.
struct Site<'a> {
    tiling: &'a [(usize, bool)],
    residue: usize,
    memory: &'a mut Memory,
    space: &'a mut [u8],
    rng: &'a mut Rng,
    aligns: &'a mut Rng,
}

impl Site<'_> {
    /// After a call on the unopened heap the tiling is made anew, by requests whose sizes are rounded up to those of its stretches. Then
    /// the rest of the memory is scribbled over, and the one more call is made.
    fn with(&mut self, counts: &mut Counts, act: &mut dyn FnMut(&mut Pair, &mut Counts)) {
        let named = self.tiling.iter().map(|(n, _)| 8 * n).sum();
        let mut unopened = Unopened::new(self.memory, self.space, self.residue);
        unopened.turn(self.rng, counts);
        let Ok(mut pair) = unopened.open(named, WAYS[self.rng.below(4) as usize], counts) else { unreachable!() };
        for (n, _) in self.tiling {
            let size = *n as u64 * 8 - self.rng.below(if *n == 2 { 17 } else { 8 });
            pair.allocate(size, 1 << self.rng.below(4), 0x5a, counts);
        }
        let mut at = pair.base;
        for (n, free) in self.tiling {
            if *free {
                let i = pair.held.iter().position(|b| b.addr == at).unwrap();
                pair.free(i, counts);
            }
            at += *n as u64 * 8;
        }
        pair.compare(self.aligns, counts);
        pair.scribble(self.rng);
        act(&mut pair, counts);
        pair.compare(self.aligns, counts);
        pair.compare_held(counts);
        counts.runs += 1;
    }

    /// A request. Where its size is even, what it was granted is freed again.
    fn requests(&mut self, units: usize, counts: &mut Counts) {
        for size in 0..=units as u64 * 8 + 8 {
            for align in [1u64, 8, 16, 32, 64] {
                self.with(counts, &mut |pair, counts| {
                    let blocks = pair.held.len();
                    pair.allocate(size, align, 0x33, counts);
                    if pair.held.len() > blocks && size % 2 == 0 {
                        pair.compare_list();
                        pair.free(blocks, counts)
                    }
                });
            }
        }
    }

    fn frees_and_resizes(&mut self, units: usize, counts: &mut Counts) {
        for i in 0..self.tiling.iter().filter(|t| !t.1).count() {
            self.with(counts, &mut |pair, counts| pair.free(i, counts));
            // every rounded size, to 8 bytes more than the heap has
            for n in 2..=units as u64 + 1 {
                self.with(counts, &mut |pair, counts| pair.resize(i, 8 * n - n % 8, counts));
            }
        }
    }

    /// Each number up to 40 with each pending up to `most`, and then 7 bytes more.
    fn extensions(&mut self, most: usize, counts: &mut Counts) {
        for pending in 0..=most {
            for by in 0..=40 {
                self.with(counts, &mut |pair, counts| {
                    pair.extend(pending, counts);
                    pair.extend(by, counts);
                    pair.compare_list();
                    pair.extend(7, counts)
                });
            }
        }
    }
}

pub fn exhaustive(most: usize) -> Counts {
    let mut counts = Counts::default();
    let mut rng = Rng(7);
    let mut aligns = aligns_of(7);
    let mut memory = Memory::new(ARENA);
    let mut space = vec![0u8; ARENA];
    for units in 2..=most {
        let mut all = Vec::new();
        tilings(units, false, &mut Vec::new(), &mut all);
        for tiling in &all {
            for residue in (0..RESIDUES).step_by(8) {
                let space = &mut space[..units * 8 + 40];
                noise(memory.bytes(residue, space.len()), &mut rng);
                noise(space, &mut rng);
                let mut site = Site { tiling, residue, memory: &mut memory, space, rng: &mut rng, aligns: &mut aligns };
                site.requests(units, &mut counts);
                site.frees_and_resizes(units, &mut counts);
                // only the top matters here: larger bases and heaps would show nothing more
                if residue < 16 {
                    site.extensions(if units <= 5 { 15 } else { 0 }, &mut counts);
                }
            }
        }
    }
    counts
}
