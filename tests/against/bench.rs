//! Both sides on the same traces, timed.

use crate::chance::Rng;
use crate::memory::{Memory, ARENA, LARGEST};
use crate::original::holes_of;
use crate::pair::carry;
use crate::report::same;
use leanlantern::{Block, Lantern};
use linked_list_allocator::Heap;
use std::alloc::Layout;
use std::ptr::NonNull;
use std::time::Instant;

#[derive(Clone, Copy)]
pub enum Turn {
    Take(u64, u64),
    Give(usize),
}

/// Classes of slots in a trace, and how many blocks are out at a time.
const CLASSES: usize = 6;
const OUT: usize = 16;

fn class_size(class: u64) -> u64 {
    24 + 8 * class
}

/// A trace: the sizes of slots and of the pins between them, in turn, and then the turns. The pins stay, so that about `holes` holes
/// stay too; a slot's class rises along the list, so that a request's class says how far along its hole is. Mixed requests find it early,
/// with sizes and alignments of all kinds; deep ones only far along. In a full trace no slot is large enough, and all are looked at.
pub fn trace(name: &str, calls: usize, holes: usize) -> (Vec<u64>, Vec<Turn>) {
    let mut rng = Rng(0x1eaf);
    if name == "full" {
        return (vec![16; 2 * holes], vec![Turn::Take(24, 8); calls]);
    }
    let first = (0..holes).flat_map(|i| [class_size((i * CLASSES / holes) as u64), 16]).collect();
    let mut turns = Vec::new();
    for n in 0..calls {
        if n < OUT || n % 2 == 0 {
            let mut draw = || rng.below(CLASSES as u64);
            if name == "deep" {
                let class = draw().max(draw());
                turns.push(Turn::Take(class_size(class), 8));
            } else {
                let class = draw().min(draw()).min(draw());
                turns.push(Turn::Take(class_size(class) - rng.below(8), 1 << rng.below(6)));
            }
        } else {
            turns.push(Turn::Give(rng.below(1 << 30) as usize));
        }
    }
    (first, turns)
}

/// What both sides must share of a trace, and the holes that the requests looked at, which only ours counts.
#[derive(Default)]
pub struct Driven {
    pub sum: u64,
    grants: u64,
    looked: u64,
}

fn drive(turns: &[Turn], take: &mut dyn FnMut(u64, u64) -> Option<(u64, u64)>, give: &mut dyn FnMut(u64, u64, u64)) -> Driven {
    let mut held: Vec<(u64, u64, u64)> = Vec::new();
    let mut driven = Driven::default();
    for t in turns {
        match *t {
            Turn::Take(size, align) => {
                if let Some((a, looked)) = take(size, align) {
                    driven.sum = driven.sum.wrapping_add(a);
                    driven.grants += 1;
                    driven.looked += looked;
                    held.push((a, size, align));
                }
            }
            Turn::Give(i) => {
                if !held.is_empty() {
                    let k = i % held.len();
                    let (a, s, g) = held.swap_remove(k);
                    give(a, s, g);
                }
            }
        }
    }
    driven
}

fn layout(size: u64, align: u64) -> Layout {
    Layout::from_size_align(size as usize, align as usize).unwrap()
}

/// The original with `named` bytes, the slots of a trace free and its pins held. The highest slot is freed first, which finds
/// its place at once.
fn laid_original(first: &[u64], memory: &mut Memory, named: usize) -> Heap {
    let mut heap = Heap::empty();
    unsafe { heap.init(memory.start, named) };
    let laid: Vec<_> = first.iter().map(|s| heap.allocate_first_fit(layout(*s, 8)).unwrap()).collect();
    for i in (0..laid.len()).step_by(2).rev() {
        unsafe { heap.deallocate(laid[i], layout(first[i], 8)) };
    }
    heap
}

/// Ours in the same state, and the addresses of slots and pins. Over 20,000 slots are not freed by calls, each of which reads all heads:
/// the original's list is written instead.
pub fn laid_ours<'a>(first: &[u64], memory: &mut Memory, space: &'a mut [u8], named: usize) -> (Lantern<'a>, Vec<u64>) {
    let mut ours = Lantern::new(space);
    ours.open(memory.start as u64, named as u64).unwrap();
    let laid: Vec<u64> = first.iter().map(|s| ours.allocate(*s, 8).unwrap().block.addr).collect();
    if first.len() > 40_000 {
        let heap = laid_original(first, memory, named);
        carry(&mut ours, &holes_of(&heap), heap.used() as u64);
    } else {
        for i in (0..laid.len()).step_by(2).rev() {
            ours.free(Block { addr: laid[i], size: first[i], align: 8 }).unwrap();
        }
    }
    (ours, laid)
}

/// One side on one trace: nanoseconds for the turns alone, what came of them, and the number of holes at the end.
pub fn side(who: &str, first: &[u64], turns: &[Turn], memory: &mut Memory, space: &mut [u8]) -> (u128, Driven, usize) {
    if who == "original" {
        let mut heap = laid_original(first, memory, space.len());
        let began = Instant::now();
        let driven = {
            let heap = std::cell::RefCell::new(&mut heap);
            drive(
                turns,
                &mut |s, a| heap.borrow_mut().allocate_first_fit(layout(s, a)).ok().map(|p| (p.as_ptr() as u64, 0)),
                &mut |p, s, a| unsafe { heap.borrow_mut().deallocate(NonNull::new(p as *mut u8).unwrap(), layout(s, a)) },
            )
        };
        return (began.elapsed().as_nanos(), driven, holes_of(&heap).len());
    }
    let len = space.len();
    let (mut ours, _) = laid_ours(first, memory, space, len);
    let began = Instant::now();
    let driven = {
        let ours = std::cell::RefCell::new(&mut ours);
        drive(
            turns,
            &mut |s, a| ours.borrow_mut().allocate(s, a).ok().map(|told| (told.block.addr, told.looked_at)),
            &mut |addr, size, align| {
                ours.borrow_mut().free(Block { addr, size, align }).unwrap();
            },
        )
    };
    (began.elapsed().as_nanos(), driven, ours.room(1).unwrap().holes as usize)
}

fn median(mut xs: Vec<f64>) -> f64 {
    xs.sort_by(|a, b| a.partial_cmp(b).unwrap());
    xs[xs.len() / 2]
}

/// Medians of nine times, both sides alternating.
struct Row {
    left: usize,
    looked: String,
    original: f64,
    ours: f64,
    ratio: f64,
}

fn row(name: &str, calls: usize, holes: usize, memory: &mut Memory, space: &mut [u8]) -> Row {
    let (first, turns) = trace(name, calls, holes);
    let (mut a, mut b, mut r) = (Vec::new(), Vec::new(), Vec::new());
    let (mut left, mut looked) = (0, String::new());
    for _ in 0..9 {
        let x = side("original", &first, &turns, memory, space);
        let y = side("ours", &first, &turns, memory, space);
        same("bench", (x.1.sum, x.1.grants, x.2), (y.1.sum, y.1.grants, y.2));
        left = x.2;
        looked = if y.1.grants == 0 { "no grant".into() } else { format!("{:.0}", y.1.looked as f64 / y.1.grants as f64) };
        a.push(x.0 as f64 / calls as f64);
        b.push(y.0 as f64 / calls as f64);
        r.push(y.0 as f64 / x.0 as f64);
    }
    Row { left, looked, original: median(a), ours: median(b), ratio: median(r) }
}

pub fn bench(calls: usize) {
    let mut memory = Memory::new(ARENA);
    let mut space = vec![0u8; ARENA];
    println!("trace  holes  looked at per grant  original ns/call  ours ns/call  ratio (medians of 9, alternating)");
    for (name, holes, aim) in [
        ("mixed", 500, Some(8.0)), ("deep", 500, Some(2.5)), ("mixed", 50, None), ("mixed", 1000, None), ("full", 50, None), ("full", 500, None),
        ("full", 2048, None),
    ] {
        let Row { left, looked, original, ours, ratio } = row(name, calls, holes, &mut memory, &mut space);
        let said = match aim {
            Some(most) if ratio <= most => format!("  at most {most} is aimed at"),
            Some(most) => format!("  MISSED: at most {most} is aimed at"),
            None => String::new(),
        };
        println!("{name:6} {left:5}  {looked:>19}  {original:16.1}  {ours:12.1}  {ratio:5.2}{said}");
    }
}

/// Arenas of three sizes. A trace has CALLS calls with 500 holes, and fewer with more: each of ours takes time with the holes.
pub fn bench_large(calls: usize) {
    let mut memory = Memory::new(LARGEST);
    let mut space = vec![0u8; LARGEST];
    println!("trace     arena   holes    calls  looked at per grant  original ns/call  ours ns/call  ratio (medians of 9, alternating)");
    for (arena, holes, share) in
        [(ARENA, 500, 1), (1 << 20, 500, 1), (1 << 20, 10_000, 20), (LARGEST, 500, 1), (LARGEST, 10_000, 20), (LARGEST, 200_000, 200)]
    {
        for name in ["mixed", "deep"] {
            let calls = calls / share;
            let Row { left, looked, original, ours, ratio } = row(name, calls, holes, &mut memory, &mut space[..arena]);
            println!("{name:6} {arena:8}  {left:6}  {calls:7}  {looked:>19}  {original:16.1}  {ours:12.1}  {ratio:5.2}");
        }
    }
}
