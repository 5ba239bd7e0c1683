//! Random runs, and the heap with as many holes as there can be.

use crate::chance::{aligns_of, random_align, Rng};
use crate::memory::{noise, Memory, ARENA, RESIDUES};
use crate::original::{Way, WAYS};
use crate::report::{same, Counts};
use crate::unopened::Unopened;

pub fn random_size(rng: &mut Rng, len: u64) -> u64 {
    match rng.below(24) {
        0 => rng.next(),
        1 => rng.below(len + 64),
        2 => (1 << 63) - rng.below(32),
        3..=8 => rng.below(300),
        _ => rng.below(64),
    }
}

/// A new size for a block of `span` bytes: near it, near its stretch, below it, somewhat above, or any.
pub fn new_size(rng: &mut Rng, span: u64, stretch: u64, len: u64) -> u64 {
    match rng.below(8) {
        0 => random_size(rng, len),
        1 | 2 => (span + 32).saturating_sub(rng.below(64)),
        3 => (stretch + 16).saturating_sub(rng.below(48)),
        4 | 5 => rng.below(span + 1),
        _ => rng.below(stretch.min(span + 200) + 24),
    }
}

/// The largest heap with as many holes as there can be: 4,096 blocks of 16 bytes, every other one given back. The blocks that stay are
/// followed by a hole of 16, all but the last; some of them, far along the list too, take it and give it back.
fn most_holes(memory: &mut Memory, space: &mut [u8], aligns: &mut Rng, counts: &mut Counts) {
    let Ok(mut pair) = Unopened::new(memory, space, 0).open(ARENA, Way::Init, counts) else { unreachable!() };
    for i in 0..ARENA / 16 {
        pair.allocate(16, 8, i as u8, counts);
    }
    for k in 0..ARENA as u64 / 32 {
        let i = pair.held.iter().position(|b| b.addr == pair.base + 32 * k).unwrap();
        pair.free(i, counts);
    }
    for k in [0, 1, 1000, 2046, 2047] {
        let i = pair.held.iter().position(|b| b.addr == pair.base + 32 * k + 16).unwrap();
        for new in [24, 32, 24, 0] {
            pair.resize(i, new, counts);
        }
    }
    pair.compare(aligns, counts);
    pair.compare_held(counts);
    same("the most holes", ARENA as u64 / 32, counts.most);
    counts.runs += 1;
}

pub fn run(seed: u64, calls: u64) -> Counts {
    // a generator of this kind must not start from 0
    let mut rng = Rng(if seed == 0 { 0x9e37_79b9_7f4a_7c15 } else { seed });
    let mut aligns = aligns_of(seed);
    let mut counts = Counts::default();
    let mut memory = Memory::new(ARENA);
    let mut space = vec![0u8; ARENA];
    most_holes(&mut memory, &mut space, &mut aligns, &mut counts);
    while counts.calls < calls {
        counts.runs += 1;
        let residue = counts.runs as usize % RESIDUES;
        let len = match rng.below(4) {
            0 => rng.below(64) as usize,
            1 => rng.below(400) as usize,
            2 => rng.below(5_000) as usize,
            _ if rng.one_in(4) => ARENA,
            _ => rng.below(ARENA as u64 + 1) as usize,
        };
        let named = if rng.one_in(2) { len } else { rng.below(len as u64 + 1) as usize };
        noise(memory.bytes(residue, len), &mut rng);
        noise(&mut space[..len], &mut rng);
        let mut unopened = Unopened::new(&mut memory, &mut space[..len], residue);
        for _ in 0..rng.below(8) {
            unopened.turn(&mut rng, &mut counts);
        }
        if rng.one_in(32) {
            continue;
        }
        let mut pair = match unopened.open(named, WAYS[rng.below(4) as usize], &mut counts) {
            Ok(pair) => pair,
            Err(mut still) => {
                still.turn(&mut rng, &mut counts);
                continue;
            }
        };
        pair.compare(&mut aligns, &mut counts);
        let turns = 20 + rng.below(if len < 1_000 { 200 } else { 1_500 });
        let keep = rng.below(90);
        for turn in 0..turns {
            match rng.below(120) {
                0..=3 => {
                    let by = if rng.one_in(3) { rng.below(len as u64 + 40) } else { rng.below(40) };
                    pair.extend(by as usize, &mut counts)
                }
                n if n < 4 + keep && !pair.held.is_empty() => {
                    let i = rng.below(pair.held.len() as u64) as usize;
                    pair.free(i, &mut counts)
                }
                100.. if !pair.held.is_empty() => {
                    let i = rng.below(pair.held.len() as u64) as usize;
                    let (stretch, _) = pair.stretch(i, &pair.original_holes());
                    let new = new_size(&mut rng, pair.held[i].span() as u64, stretch, len as u64);
                    pair.resize(i, new, &mut counts)
                }
                _ => {
                    let (size, align, stamp) = (random_size(&mut rng, len as u64), random_align(&mut rng), rng.next() as u8);
                    pair.allocate(size, align, stamp, &mut counts)
                }
            }
            pair.compare_list();
            if len < 1_000 || turn % 64 == 0 {
                pair.compare(&mut aligns, &mut counts);
                pair.compare_held(&mut counts);
                if rng.one_in(4) {
                    pair.scribble(&mut rng);
                }
            }
        }
        // all given back: one hole from bottom to top
        while !pair.held.is_empty() {
            let i = rng.below(pair.held.len() as u64) as usize;
            pair.free(i, &mut counts);
            pair.compare_list();
        }
        pair.compare(&mut aligns, &mut counts);
        same("all given back", vec![(pair.heap.bottom() as u64, pair.heap.size() as u64)], pair.original_holes());
    }
    counts
}
