//! The edges of shared ground: every small opening, and every alignment with the sizes at its limits.

use crate::chance::{aligns_of, Rng};
use crate::memory::{noise, Memory, ARENA, RESIDUES};
use crate::original::{Way, WAYS};
use crate::report::Counts;
use crate::unopened::Unopened;

/// One opening, in one of the original's ways, after a call on the unopened heap. An extension follows, with the whole heap free or with
/// the whole heap held, which is given back then. False where there are too few bytes for an opening.
fn opening(mut unopened: Unopened, named: usize, turn: usize, rng: &mut Rng, aligns: &mut Rng, counts: &mut Counts) -> bool {
    let (by, held) = (turn / 2, turn % 2 == 1);
    counts.runs += 1;
    unopened.turn(rng, counts);
    let mut pair = match unopened.open(named, WAYS[by % 4], counts) {
        Ok(pair) => pair,
        Err(mut still) => {
            still.turn(rng, counts);
            return false;
        }
    };
    pair.compare(aligns, counts);
    if held {
        pair.allocate(pair.heap.size() as u64, 1, 0x5a, counts);
    }
    pair.scribble(rng);
    pair.extend(by, counts);
    pair.compare(aligns, counts);
    if held {
        pair.free(0, counts);
        pair.compare(aligns, counts);
    }
    true
}

/// Every base modulo 64 with every number of named bytes up to `most`, each followed by an extension by each number up to 40, so that
/// each is opened in each of the original's four ways.
fn openings(most: usize, memory: &mut Memory, space: &mut [u8], aligns: &mut Rng, counts: &mut Counts) {
    let mut rng = Rng(11);
    for residue in 0..RESIDUES {
        for named in 0..=most {
            let space = &mut space[..named + 40];
            noise(memory.bytes(residue, space.len()), &mut rng);
            noise(space, &mut rng);
            for turn in 0..2 * 41 {
                if !opening(Unopened::new(memory, space, residue), named, turn, &mut rng, aligns, counts) {
                    break;
                }
            }
        }
    }
}

/// The smallest sizes, those around the largest that a layout can have with the alignment, and the largest numbers.
fn sizes(align: u64) -> Vec<u64> {
    let largest = (1 << 63) - align;
    let mut all = Vec::new();
    for d in 0..=24 {
        all.extend([d, largest.saturating_sub(d), largest + d, u64::MAX - d]);
    }
    all
}

/// Every alignment with these sizes, asked of an unopened heap and then of one of 256 bytes, all free, which lies at a multiple of 2^20.
/// What is granted is given back. The first block, of 16 bytes, gets new sizes of the same kind before.
fn layouts(memory: &mut Memory, space: &mut [u8], aligns: &mut Rng, counts: &mut Counts) {
    for power in 0..64 {
        let align = 1 << power;
        let all = sizes(align);
        let mut unopened = Unopened::new(memory, &mut space[..256], 0);
        for size in &all {
            unopened.allocate(*size, align, counts);
        }
        let Ok(mut pair) = unopened.open(256, Way::Init, counts) else { unreachable!() };
        for (i, size) in all.iter().enumerate() {
            pair.allocate(*size, align, 0x33, counts);
            pair.compare(aligns, counts);
            if pair.held.is_empty() {
                continue;
            }
            if i == 0 {
                for new in &all {
                    pair.resize(0, *new, counts);
                }
            }
            pair.free(0, counts);
            pair.compare(aligns, counts);
        }
        counts.runs += 1;
    }
}

pub fn edges(most: usize) -> Counts {
    let mut counts = Counts::default();
    let mut aligns = aligns_of(11);
    let mut memory = Memory::new(ARENA);
    let mut space = vec![0u8; ARENA];
    openings(most, &mut memory, &mut space, &mut aligns, &mut counts);
    layouts(&mut memory, &mut space, &mut aligns, &mut counts);
    counts
}
