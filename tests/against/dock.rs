//! Large boxes: both sides on arenas of up to 16,777,216 bytes, with up to 524,288 holes.
//!
//! Answers, refusals and the heap's numbers are compared at every call. Lists, room reports, our words, the bytes of our heads and every
//! held byte are compared before the calls by chance, after each 16th of them and at the end of a run: at this size it would take too long
//! to compare bytes after every call. Only a resize is followed by a comparison of all bytes, as in the other modes, so resizes are few.
//!
//! A call of ours reads every head, and a call makes one hole more at most, so it takes long to make many holes by calls. Both sides are
//! filled by grants. Then the original frees blocks from the highest to the lowest, which costs it little. Up to 3,000 blocks ours frees
//! too; where there are more, the original's list is written into our arena instead. `by_frees` makes many holes by calls of both sides,
//! and holds what they leave to what would have been written.

use crate::chance::{aligns_of, random_align, Rng};
use crate::memory::{noise, Memory, LARGEST, RESIDUES};
use crate::original::Way;
use crate::pair::Pair;
use crate::report::{same, Counts};
use crate::runs::new_size;
use crate::unopened::Unopened;
use leanlantern::{Lantern, Opened, Refusal};

/// Up to so many blocks are freed by calls of both sides.
const BY_CALLS: usize = 3_000;

fn compare_all(pair: &mut Pair, aligns: &mut Rng, counts: &mut Counts) {
    pair.compare(aligns, counts);
    pair.compare_heads();
    pair.compare_held(counts);
}

/// Blocks one after the other until there is no room, of 16 bytes and up to `kinds` - 1 times 8 more.
fn fill(pair: &mut Pair, kinds: u64, rng: &mut Rng, counts: &mut Counts) {
    let refused = counts.no_room;
    while counts.no_room == refused {
        let (size, stamp) = (16 + 8 * rng.below(kinds) - rng.below(8), rng.next() as u8);
        pair.allocate(size, 1, stamp, counts);
    }
}

/// Some of the blocks that `fill` left are freed, the highest first.
fn thin(pair: &mut Pair, freed: &mut dyn FnMut(usize) -> bool, most_by_calls: usize, counts: &mut Counts) {
    let which: Vec<usize> = (0..pair.held.len()).rev().filter(|i| freed(*i)).collect();
    for i in &which {
        // the block that takes its place in the row comes from behind
        if which.len() > most_by_calls {
            pair.free_on_original(*i)
        } else {
            pair.free(*i, counts)
        }
    }
    if which.len() > most_by_calls {
        pair.carry(counts)
    }
}

fn dock_size(rng: &mut Rng, len: u64) -> u64 {
    match rng.below(24) {
        0 => rng.next(),
        1 => rng.below(len + 64),
        2 => (1 << 63) - rng.below(32),
        3 => 65_536 + 32 - rng.below(64),
        4 => rng.below(10_000),
        5..=12 => rng.below(200),
        _ => rng.below(64),
    }
}

fn dock_align(rng: &mut Rng) -> u64 {
    if rng.one_in(4) { 1 << rng.below(26) } else { random_align(rng) }
}

fn turn(pair: &mut Pair, len: u64, keep: u64, rng: &mut Rng, counts: &mut Counts) {
    match rng.below(120) {
        0..=7 => {
            let by = if rng.one_in(3) { rng.below(len + 40) } else { rng.below(40) };
            pair.extend(by as usize, counts)
        }
        n if n < 8 + keep && !pair.held.is_empty() => {
            let i = rng.below(pair.held.len() as u64) as usize;
            pair.free(i, counts)
        }
        112.. if !pair.held.is_empty() => {
            let i = rng.below(pair.held.len() as u64) as usize;
            let (stretch, _) = pair.stretch(i, &pair.original_holes());
            let new = new_size(rng, pair.held[i].span() as u64, stretch, len);
            pair.resize(i, new, counts)
        }
        _ => {
            let (size, align, stamp) = (dock_size(rng, len), dock_align(rng), rng.next() as u8);
            pair.allocate(size, align, stamp, counts)
        }
    }
}

/// Which blocks are freed before the calls by chance.
#[derive(Clone, Copy)]
enum Freed {
    EveryOther,
    EveryOtherFromSomewhere,
    Any,
}

struct Plan {
    len: usize,
    named: usize,
    /// About so many holes, where they fit.
    holes: usize,
    freed: Freed,
}

/// The first run has the largest arena, and 250,000 holes all over it.
fn plan(first: bool, rng: &mut Rng) -> Plan {
    if first {
        return Plan { len: LARGEST, named: LARGEST, holes: 250_000, freed: Freed::EveryOther };
    }
    let len = match rng.below(7) {
        0 => LARGEST,
        1 => LARGEST - rng.below(64) as usize,
        2 => 65_536 + 64 - rng.below(128) as usize,
        3 => rng.below(1 << 20) as usize,
        4 => rng.below(5_000) as usize,
        _ => rng.below(LARGEST as u64 + 1) as usize,
    };
    let named = if rng.one_in(2) { len } else { rng.below(len as u64 + 1) as usize };
    let holes = [100, 2_000, 20_000, 100_000, 300_000][rng.below(5) as usize];
    let freed = [Freed::EveryOther, Freed::EveryOther, Freed::EveryOtherFromSomewhere, Freed::Any][rng.below(4) as usize];
    Plan { len, named, holes, freed }
}

/// One run: filled, thinned, then calls by chance.
fn random_run(pair: &mut Pair, plan: &Plan, rng: &mut Rng, aligns: &mut Rng, counts: &mut Counts) {
    counts.runs += 1;
    counts.largest += (plan.len == LARGEST) as u64;
    let kinds = (pair.heap.size() / (2 * plan.holes)).saturating_sub(16) / 4 + 1;
    fill(pair, kinds as u64, rng, counts);
    let blocks = pair.held.len() as u64;
    match plan.freed {
        Freed::EveryOther => thin(pair, &mut |i| i % 2 == 0, BY_CALLS, counts),
        Freed::EveryOtherFromSomewhere => {
            let from = rng.below(blocks + 1) as usize;
            thin(pair, &mut |i| i >= from && i % 2 == 0, BY_CALLS, counts)
        }
        Freed::Any => thin(pair, &mut |_| rng.one_in(2), BY_CALLS, counts),
    }
    compare_all(pair, aligns, counts);
    let keep = rng.below(90);
    for n in 1..=32 + rng.below(32) {
        turn(pair, plan.len as u64, keep, rng, counts);
        counts.by_chance += 1;
        if n % 16 == 0 {
            compare_all(pair, aligns, counts);
            if rng.one_in(4) {
                pair.scribble(rng);
            }
        }
    }
    compare_all(pair, aligns, counts);
    if pair.held.len() <= BY_CALLS {
        // all given back: one hole from bottom to top
        while !pair.held.is_empty() {
            let i = rng.below(pair.held.len() as u64) as usize;
            pair.free(i, counts);
        }
        compare_all(pair, aligns, counts);
        same("all given back", vec![(pair.heap.bottom() as u64, pair.heap.size() as u64)], pair.original_holes());
    }
}

/// The largest arena with as many holes as there can be: 1,048,576 blocks of 16 bytes, every other one given back. Blocks at the start, in
/// the middle and at the end take the hole behind them and give it back. Then each of them is freed, which joins it with the holes that it
/// touches, and as many bytes as a block and two such holes have are asked for; at the end, as a block and one.
fn most_holes(memory: &mut Memory, space: &mut [u8], aligns: &mut Rng, counts: &mut Counts) {
    let Ok(mut pair) = Unopened::new(memory, space, 0).open(LARGEST, Way::Init, counts) else { unreachable!() };
    fill(&mut pair, 1, &mut Rng(9), counts);
    thin(&mut pair, &mut |i| i % 2 == 0, BY_CALLS, counts);
    compare_all(&mut pair, aligns, counts);
    same("the most holes", LARGEST / 32, pair.original_holes().len());
    for k in [0, 1, 262_144, 524_286, 524_287] {
        let i = pair.held.iter().position(|b| b.addr == pair.base + 32 * k + 16).unwrap();
        for new in [24, 32, 0] {
            pair.resize(i, new, counts);
        }
        pair.free(i, counts);
        pair.allocate(if k == 524_287 { 32 } else { 48 }, 8, 0x44, counts);
    }
    compare_all(&mut pair, aligns, counts);
    counts.runs += 1;
    counts.largest += 1;
}

/// So many holes in the largest arena, by calls of both sides, from the top down. What `carry` would have written is there.
fn by_frees(built: usize, memory: &mut Memory, space: &mut [u8], aligns: &mut Rng, counts: &mut Counts) {
    let Ok(mut pair) = Unopened::new(memory, space, 0).open(LARGEST, Way::Init, counts) else { unreachable!() };
    fill(&mut pair, 2, &mut Rng(5), counts);
    let blocks = pair.held.len();
    thin(&mut pair, &mut |i| i % 2 == 0 && blocks - i <= 2 * built, built, counts);
    compare_all(&mut pair, aligns, counts);
    counts.built = pair.original_holes().len() as u64;
    counts.runs += 1;
    counts.largest += 1;
}

/// One byte more than there can be is refused, and all that there can be is not.
fn limit(memory: &Memory) {
    let mut space = vec![0u8; LARGEST + 1];
    let base = memory.start as u64;
    let answer = Lantern::new(&mut space).open(base, 64);
    same("an arena of 16,777,217 bytes", Err(Refusal::BadOpening), answer);
    let answer = Lantern::new(&mut space[..LARGEST]).open(base, LARGEST as u64);
    same("an arena of 16,777,216 bytes", Ok(Opened { bottom: base, size: LARGEST as u64 }), answer);
}

pub fn dock(seed: u64, runs: u64, built: usize) -> Counts {
    let mut rng = Rng(if seed == 0 { 0x9e37_79b9_7f4a_7c15 } else { seed });
    let mut aligns = aligns_of(seed);
    let mut counts = Counts::default();
    let mut memory = Memory::new(LARGEST);
    let mut space = vec![0u8; LARGEST];
    limit(&memory);
    for n in 0..runs {
        let plan = plan(n == 0, &mut rng);
        let residue = n as usize % RESIDUES;
        noise(memory.bytes(residue, plan.len), &mut rng);
        noise(&mut space[..plan.len], &mut rng);
        let mut unopened = Unopened::new(&mut memory, &mut space[..plan.len], residue);
        unopened.turn(&mut aligns, &mut counts);
        let Ok(mut pair) = unopened.open(plan.named, Way::Init, &mut counts) else { continue };
        random_run(&mut pair, &plan, &mut rng, &mut aligns, &mut counts);
    }
    by_frees(built, &mut memory, &mut space, &mut aligns, &mut counts);
    most_holes(&mut memory, &mut space, &mut aligns, &mut counts);
    counts
}
